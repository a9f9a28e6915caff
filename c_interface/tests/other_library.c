/* A library of another version, or with another frame, isn't started. The six functions are stand-ins here. And the release
 * says the version. */
#include "mazzulpe.h"
#include "seen.h"

static uint32_t version = MZ_VERSION;
static size_t frame_size = sizeof(mz_frame);
static int opened;

uint32_t mazzulpe_version(void) { return version; }
size_t mazzulpe_frame_size(void) { return frame_size; }
size_t mazzulpe_size(void) { return 4096; }
void mazzulpe_open(mz_frame *room) { memset(room, 0, sizeof *room), opened++; }
uint32_t mazzulpe_call(mz_frame *handle) { return handle->what == MZ_CALL_START_TC ? MZ_OK : MZ_NO_SUCH_CALL; }
void mazzulpe_close(mz_frame *handle) { (void)handle, opened--; }

static mz_code started(uint32_t version_then, size_t size_then) {
    mz_code code;
    version = version_then;
    frame_size = size_then;
    mz_tc *tc = mz_tc_new(1, &code);
    SEEN((tc != NULL) == (code == MZ_OK));
    mz_tc_free(tc);
    SEEN(opened == 0);
    return code;
}

static int says_version(const char *release) {
    int version_said = 0, patch = -1;
    return sscanf(release, "0.%d.%d", &version_said, &patch) == 2 && version_said == MZ_VERSION && patch >= 0;
}

int main(void) {
    SEEN(says_version(MZ_RELEASE));
    SEEN(started(MZ_VERSION, sizeof(mz_frame)) == MZ_OK);
    SEEN(started(MZ_VERSION + 1, sizeof(mz_frame)) == MZ_OTHER_LIBRARY);
    SEEN(started(MZ_VERSION, sizeof(mz_frame) + 8) == MZ_OTHER_LIBRARY);
    printf("another library: %s\n", failures ? "NOT refused" : "refused");
    return failures != 0;
}

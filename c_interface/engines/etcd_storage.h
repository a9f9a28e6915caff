/* Where the clusters of etcd_storage.c are. */
#ifndef ETCD_STORAGE_H
#define ETCD_STORAGE_H

/* The members of a data component's, "host:port,..", once servers_begin was called. */
const char *etcd_members(int dc);

#endif

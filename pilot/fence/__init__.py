"""The fence: which file of a store may be served. It is in etcd."""

#!/bin/sh
# The commands that set two machines up, to be read and typed one by one, not run as a script. What stands before `gated create` was run in trials on two
# emulated machines; what has to do with Pacemaker was not.
exit 1

# On both machines, once store.res is in place:
drbdadm create-md store
drbdadm up store

# On one of them:
drbdadm new-current-uuid --clear-bitmap store
drbdadm primary store
mkfs.ext4 /dev/drbd0
mount /dev/drbd0 /srv/gated
gated create /srv/gated/store.db
umount /srv/gated

# On one of them, with Pacemaker and pcs on both. The unit is examples/gated.service without ExecStartPre= and StateDirectory=, with Restart=no, and
# with the store's path: the cluster decides where it runs.
pcs resource create disk ocf:linbit:drbd drbd_resource=store promotable promoted-max=1 clone-max=2 notify=true
pcs resource create files Filesystem device=/dev/drbd0 directory=/srv/gated fstype=ext4 --group gated
pcs resource create server systemd:gated --group gated
pcs resource create address IPaddr2 ip=10.0.0.100 --group gated
pcs constraint colocation add gated with promoted disk-clone
pcs constraint order promote disk-clone then start gated
# A switch that cuts the power of the other machine, for example by IPMI. Without a real one do not go on: two servers would write.
pcs stonith create power fence_ipmilan ip=10.0.1.1 username=admin password=secret
pcs property set stonith-enabled=true

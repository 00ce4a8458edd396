#!/bin/sh
# The commands that set three machines up with a GlusterFS volume of three replicas, to be read and typed one by one, not run as a script. All of them were run in
# trials, with GlusterFS 10.
exit 1

# On one machine, once glusterd runs on all three and they know one another (`gluster peer probe`):
gluster volume create store replica 3 n1:/bricks/store n2:/bricks/store n3:/bricks/store
for option in 'network.ping-timeout 5' 'server.tcp-user-timeout 5' 'performance.write-behind off' 'performance.open-behind off' \
  'performance.stat-prefetch off' 'performance.quick-read off'; do
  # shellcheck disable=SC2086
  gluster volume set store $option
done
# After the options, since a brick counts `tcp-user-timeout` from its start.
gluster volume start store

# On each machine:
mount -t glusterfs n1:/store /srv/gated

# Once, on one of them:
gated create /srv/gated/store.db

# On each machine that may serve. The lock on the file reaches all machines, so it says which one serves: the others try until it is let go.
while ! gated serve /srv/gated/store.db --listen 10.0.0.100:8080; do sleep 0.2; done

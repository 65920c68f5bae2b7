#!/usr/bin/env bash
# Shows the target store of store/, which took one batch of two rows. It expects
#   public.users 2 / 1,a / 2,b
examples=$(dirname "$0")
exec "$examples/voyager.sh" "$examples/store" show target

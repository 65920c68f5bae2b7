#!/usr/bin/env bash
# Runs the dry run over the recording and segment of notes/. It expects
#   public.notes 2 / a,x / b,y / done: last vsn 3
examples=$(dirname "$0")
exec "$examples/voyager.sh" "$examples/notes" import data to target --dry-run

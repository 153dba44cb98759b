#!/usr/bin/env bash
# Calls FetchX509SVID of the Workload API at the endpoint that SPIFFE_ENDPOINT_SOCKET names, and writes the body of the
# response to standard output as it comes. At the end standard error has the gRPC status.
#
#   examples/fetch.sh | spf_proto_watch "$(date +%s)"
set -u

endpoint="${SPIFFE_ENDPOINT_SOCKET-}"
case "$endpoint" in
    unix:///*) path="${endpoint#unix://}" ;;
    unix:/*) path="${endpoint#unix:}" ;;
    *)
        echo "fetch.sh: SPIFFE_ENDPOINT_SOCKET names no Unix socket" >&2
        exit 1
        ;;
esac

# The request is an empty message: the flag octet, and a length of 0.
printf '\0\0\0\0\0' |
    curl --silent --show-error --no-buffer --http2-prior-knowledge --unix-socket "$path" \
        --header 'content-type: application/grpc' \
        --header 'te: trailers' \
        --header 'workload.spiffe.io: true' \
        --data-binary @- \
        --write-out '%{stderr}grpc-status %header{grpc-status}: %header{grpc-message}\n' \
        http://localhost/SpiffeWorkloadAPI/FetchX509SVID

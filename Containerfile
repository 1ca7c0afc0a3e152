# The daemon over a log in the folder STORE of the host, from the tarball that `make dist` made:
#     make dist
#     podman build --tag segdag .
#     podman run --volume STORE:/store --user "$(id -u)" segdag          # by a user: --userns keep-id in place of --user
# Its socket is STORE/socket, beside the log STORE/log. Without a volume there is no /store, and the daemon says so and ends: nothing is
# stored in the container itself.
FROM docker.io/library/debian:stable-slim
RUN apt-get update && apt-get install --yes --no-install-recommends python3 git && rm -rf /var/lib/apt/lists/*
ADD out/dist/segdag-*-linux-x86_64.tar.gz /opt/
RUN ln -s /opt/segdag-*-linux-x86_64/bin/* /usr/local/bin/
CMD ["segdagd", "/store/log", "--socket", "/store/socket"]

# whatif in a container, from the .deb that tools/release made, with the C library alone beside it:
#   podman build --build-arg DEB=release/whatif_0.1.0_amd64.deb -t whatif .
#   podman run --rm -i whatif < examples/tariff.whatif
FROM docker.io/library/debian:12-slim AS unpacked
ARG DEB
COPY ${DEB} /whatif.deb
RUN dpkg-deb --extract /whatif.deb /unpacked
FROM gcr.io/distroless/base-debian12
COPY --from=unpacked /unpacked/usr/bin/whatif /usr/bin/whatif
COPY --from=unpacked /unpacked/usr/share/doc/whatif/BUILD /unpacked/usr/share/doc/whatif/copyright /usr/share/doc/whatif/
USER 65532
ENTRYPOINT ["/usr/bin/whatif"]

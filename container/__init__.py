"""The gateway in a container: static binaries, an OCI image, runc bundles of it, and six of them at work. bin/image-oci and bin/six use these parts."""

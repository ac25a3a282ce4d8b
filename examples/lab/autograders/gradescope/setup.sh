#!/bin/sh
# Gradescope runs this once, when it makes the image.
apt-get update && apt-get install -y --no-install-recommends gcc libc6-dev python3

env:X ? /etc/a

"""The files that the scripts beside this page read: each by its name, with its bytes."""


def words(text):
    """The bytes of these words of four, big-endian."""
    return b"".join(int(word, 16).to_bytes(4, "big") for word in text.split())


FILES = {
    # Three records, of which two are alike, in 18 bytes.
    "a.csv": b'1,ab\n2,"c,d"\n1,ab\n',
    "empty.csv": b"",
    # The numbers below 8,192 in records of 8 bytes: 65,536 bytes.
    "large.csv": b"".join(b"%07d\n" % n for n in range(8192)),
    "plus.csv": b"1\n+1\n2,3\n",
    "one.csv": b"b\na\n\nb\n\xff",
    "open.csv": b'n\r\n7,"a\r\n""b"""',
    # A netCDF file with one variable `v` of shorts over the record dimension `x` and `y` of length 3, with two records.
    "s.nc": words(
        """
        43444601 2
        a 2 1 78000000 0 1 79000000 3
        0 0
        b 1 1 76000000 2 0 1 0 0 3 8 60
        00010002 00030004 00050006
        """
    ),
}

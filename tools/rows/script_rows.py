"""The rows of `rart_script`: a script, what it prints, what it says on standard error, and its status."""

FIRST = b"line 1: bad command\n"

ROWS = (
    # README's commands.
    (
        b"insert cat 1\ninsert catalog 2\nget cat\nlongest catalogue\n",
        b"none\nnone\nsome 1\nsome catalog=2\n",
        b"",
        0,
    ),
    (
        b"insert cat 1\ninsert catalog 2\ninsert cat 5\nget cat\nget ca\nlen\n",
        b"none\nnone\nsome 1\nsome 5\nnone\n2\n",
        b"",
        0,
    ),
    # Words are between any separators, and the last line needs no newline.
    (b"\tinsert \r a\t\t1 \r\nget\ta", b"none\nsome 1\n", b"", 0),
    # A line without words prints nothing.
    (b"", b"", b"", 0),
    (b"\n\n \t\r\nlen\n\n", b"0\n", b"", 0),
    # The greatest value, and zeros before a value.
    (b"insert a 18446744073709551615\nget a\n", b"none\nsome 18446744073709551615\n", b"", 0),
    (b"insert a 0\nget a\n", b"none\nsome 0\n", b"", 0),
    (b"insert a 00000000000000000000000000000000000018\nget a\n", b"none\nsome 18\n", b"", 0),
    # The empty key, and longer keys of its sign.
    (b"get -\ninsert - 3\nget -\nlen\n", b"none\nnone\nsome 3\n1\n", b"", 0),
    (b"insert -- 1\nget -\nget --\n", b"none\nnone\nsome 1\n", b"", 0),
    # A key is taken byte for byte.
    (b"insert a 1\nget A\n", b"none\nnone\n", b"", 0),
    (b"insert \xff\x80 4\nget \xff\x80\nget \xff\n", b"none\nsome 4\nnone\n", b"", 0),
    (b"insert a\0 1\nget a\nget a\0\n", b"none\nnone\nsome 1\n", b"", 0),
    (b"insert a\x0bb 1\nget a\nget a\x0bb\n", b"none\nnone\nsome 1\n", b"", 0),
    (b"insert a\x0cb 1\nget a\nget a\x0cb\n", b"none\nnone\nsome 1\n", b"", 0),
    (b"insert insert 1\nget insert\nget get\n", b"none\nsome 1\nnone\n", b"", 0),
    # A key of 32 bytes.
    (
        b"insert 0123456789abcdef0123456789abcdef 7\nget 0123456789abcdef0123456789abcdef\n",
        b"none\nsome 7\n",
        b"",
        0,
    ),
    # Pairs and statistics are of the keys that are left.
    (
        b"insert cat 1\ninsert catalog 2\ninsert dog 3\nremove cat\niter\nstats\nget -\nlen\n",
        b"none\nnone\nnone\nsome 1\ncatalog=2 dog=3\n"
        b"leaves 2 values 2 inner 1 children 2 width 4 height 2 w4:1/2\nnone\n2\n",
        b"",
        0,
    ),
    # An empty tree has no pairs and no nodes.
    (b"iter\nstats\n", b"empty\nleaves 0 values 0 inner 0 children 0 width 0 height 0\n", b"", 0),
    # The empty key is printed by its sign.
    (b"insert b 2\ninsert - 1\niter\n", b"none\nnone\n-=1 b=2\n", b"", 0),
    # Keys below a prefix, and the longest that begins a probe.
    (
        b"insert cat 1\ninsert catalog 2\ninsert dog 3\nprefix ca\nprefix catalogue\nlongest catalogue\nlongest do\n",
        b"none\nnone\nnone\ncat=1 catalog=2\nempty\nsome catalog=2\nnone\n",
        b"",
        0,
    ),
    (
        b"prefix -\nlongest -\nlongest a\ninsert - 0\ninsert a 1\nprefix -\nlongest -\nlongest b\nlongest ab\n",
        b"empty\nnone\nnone\nnone\nnone\n-=0 a=1\nsome -=0\nsome -=0\nsome a=1\n",
        b"",
        0,
    ),
    (b"insert prefix 1\nprefix longest\nlongest prefix\n", b"none\nempty\nsome prefix=1\n", b"", 0),
    # A range from its first key on, before its second.
    (
        b"range a b\ninsert cat 1\ninsert dog 2\nrange cat dog\nrange - dog\nrange dog cat\nrange cat cat\nrange a z\n",
        b"empty\nnone\nnone\ncat=1\ncat=1\nempty\nempty\ncat=1 dog=2\n",
        b"",
        0,
    ),
    (
        b"insert cat 1\ninsert catalog 2\ninsert dog 3\nprefix ca\nlongest catalogue\nrange cat dog\n"
        b"remove cat\nstats\nget -\nlen\n",
        b"none\nnone\nnone\ncat=1 catalog=2\nsome catalog=2\ncat=1 catalog=2\nsome 1\n"
        b"leaves 2 values 2 inner 1 children 2 width 4 height 2 w4:1/2\nnone\n2\n",
        b"",
        0,
    ),
    # A malformed line ends the run.
    (b"insert a 1\nfoo\nlen\n", b"none\n", b"line 2: bad command\n", 2),
    (b"foo", b"", FIRST, 2),
    (b"\n \nfoo", b"", b"line 3: bad command\n", 2),
    (b"inserta 1", b"", FIRST, 2),
    (b"INSERT a 1", b"", FIRST, 2),
    (b"Get a", b"", FIRST, 2),
    (b"LEN", b"", FIRST, 2),
    (b"Iter", b"", FIRST, 2),
    (b"STATS", b"", FIRST, 2),
    (b"Prefix a", b"", FIRST, 2),
    (b"LONGEST a", b"", FIRST, 2),
    # Missing and surplus words.
    (b"insert", b"", FIRST, 2),
    (b"insert a", b"", FIRST, 2),
    (b"insert a 1 2", b"", FIRST, 2),
    (b"get", b"", FIRST, 2),
    (b"get a b", b"", FIRST, 2),
    (b"prefix", b"", FIRST, 2),
    (b"prefix a b", b"", FIRST, 2),
    (b"longest", b"", FIRST, 2),
    (b"longest a b", b"", FIRST, 2),
    (b"range", b"", FIRST, 2),
    (b"range a", b"", FIRST, 2),
    (b"range a b c", b"", FIRST, 2),
    (b"len 1", b"", FIRST, 2),
    (b"iter x", b"", FIRST, 2),
    (b"stats x", b"", FIRST, 2),
    # No value.
    (b"insert a +1", b"", FIRST, 2),
    (b"insert a -1", b"", FIRST, 2),
    (b"insert a -", b"", FIRST, 2),
    (b"insert a 1x", b"", FIRST, 2),
    (b"insert a x", b"", FIRST, 2),
    (b"insert a 0x1", b"", FIRST, 2),
    (b"insert a 1/", b"", FIRST, 2),
    (b"insert a 18446744073709551616", b"", FIRST, 2),
    (b"insert a 99999999999999999999999999", b"", FIRST, 2),
    # A key of 33 bytes.
    (b"insert 0123456789abcdef0123456789abcdef0 1", b"", FIRST, 2),
    (b"get 0123456789abcdef0123456789abcdef0", b"", FIRST, 2),
    (b"prefix 0123456789abcdef0123456789abcdef0", b"", FIRST, 2),
    (b"longest 0123456789abcdef0123456789abcdef0", b"", FIRST, 2),
    (b"range a 0123456789abcdef0123456789abcdef0", b"", FIRST, 2),
)

# What lines between and around the others do.
MIXED = (
    (b"insert - 5\r\n\ninsert a 007\niter", b"none\nnone\n-=5 a=7\n", b"", 0),
    (b"insert b 1\nrange c a\n", b"none\nempty\n", b"", 0),
    (b"insert - 5\n\nget\n", b"none\n", b"line 3: bad command\n", 2),
    (b"len x", b"", FIRST, 2),
    (b"remove", b"", FIRST, 2),
)

TABLES = {"ROWS": ROWS, "MIXED": MIXED}

# Answers, and then a malformed line.
SHARED = (b"get a\nlen\nfoo\nlen\n", b"none\n0\n", b"line 3: bad command\n", 2)

SLOW = (b"insert - 5\r\n\ninsert a 007\niter\nfoo", b"none\nnone\n-=5 a=7\n", b"line 5: bad command\n", 2)

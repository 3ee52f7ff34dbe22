"""The rows of `rart_routes`: a script, its output, what it says on standard error, its status, and its arguments."""

COMMAND = b"line 1: bad command\n"
ADDRESS = b"line 1: bad address\n"
LENGTH = b"line 1: bad length\n"
HOST_BITS = b"line 1: host bits set\n"
TARGET = b"line 1: target too long\n"

KEEP_GOING = b"--keep-going"

# A table as text: comments, empty lines and routes, in any order.
TABLE = b"""# core
10.0.0.0/8 core
2001:db8::/32 v6	

10.1.0.0/16 lab  # and a line that is malformed
 #10.0.0.0/8 no
10.1.0.0/16 lab
0.0.0.0/0 -
10.1.2.3 printer
::1 #
10.1.0.0/16 lab2
"""

# The same as `dump` writes it.
DUMPED = b"""0.0.0.0/0 -
10.0.0.0/8 core
10.1.0.0/16 lab2
10.1.2.3/32 printer
::1/128 #
2001:db8::/32 v6
"""

ROWS = (
    # README's commands.
    (
        b"add 10.0.0.0/8 core\nadd 10.16.0.0/12 lyon\nroute 10.17.2.3\nwithin 10.0.0.0/8\n",
        b"none\nnone\nsome 10.16.0.0/12=lyon\n10.0.0.0/8=core 10.16.0.0/12=lyon\n",
        b"",
        0,
    ),
    (
        b"add 10.0.0.0/8 core\nadd 10.1.0.0/16 lab\nget 10.0.0.0/8\nroute 10.1.2.3\nlen\n",
        b"none\nnone\nsome core\nsome 10.1.0.0/16=lab\n2\n",
        b"",
        0,
    ),
    # A route leaves if the next shorter network that contains its own has the same target, in its own table.
    (b"aggregate\n0.0.0.0/0 a\n::/0 a\naggregate\n", b"0\n0\n", b"", 0),
    (
        b"0.0.0.0/0 a\n10.0.0.0/8 b\n10.1.0.0/16 b\n10.1.2.0/24 a\n10.1.2.3 a\n::/1 a\n::/2 ab\n::/3 ab\n"
        b"aggregate\ndump\nroute 10.1.2.3\nroute 10.1.3.3\naggregate\n",
        b"3\n0.0.0.0/0 a\n10.0.0.0/8 b\n10.1.2.0/24 a\n::/1 a\n::/2 ab\n"
        b"some 10.1.2.0/24=a\nsome 10.0.0.0/8=b\n0\n",
        b"",
        0,
    ),
    # Words are between any separators, and the last line needs no newline.
    (b"\tadd \r 10.0.0.0/8\t\ta \r\nget\t10.0.0.0/8", b"none\nsome a\n", b"", 0),
    # A line without words prints nothing.
    (b"", b"", b"", 0),
    (b"\n\n \t\r\nlen\n\n", b"0\n", b"", 0),
    # An address alone is a host.
    (
        b"add 10.0.0.1 a\nadd ::1 b\nadd 10.0.0.1/32 c\ndel ::1/128\ndel ::1\nlen",
        b"none\nnone\nsome a\nsome b\nnone\n1\n",
        b"",
        0,
    ),
    # The networks of all addresses, each of its own version.
    (
        b"add 0.0.0.0/0 a\nroute ::1\nadd ::/0 b\nroute ::1\nroute 1.2.3.4\ncovering 1.2.3.4\n",
        b"none\nnone\nnone\nsome ::/0=b\nsome 0.0.0.0/0=a\n0.0.0.0/0=a\n",
        b"",
        0,
    ),
    # Any text of an address is read, and the shortest is printed.
    (
        b"add 2001:0DB8:0:0::/32 a\nroute 2001:db8::ffff\nadd ::ffff:10.0.0.0/104 b\nroute ::ffff:a00:1\n",
        b"none\nsome 2001:db8::/32=a\nnone\nsome ::ffff:10.0.0.0/104=b\n",
        b"",
        0,
    ),
    # All that contain an address, the shortest first.
    (
        b"add 10.1.2.3 d\nadd 10.0.0.0/8 b\nadd 10.1.0.0/16 c\nadd 0.0.0.0/0 a\nadd 11.0.0.0/8 e\ncovering 10.1.2.3\n",
        b"none\nnone\nnone\nnone\nnone\n0.0.0.0/0=a 10.0.0.0/8=b 10.1.0.0/16=c 10.1.2.3/32=d\n",
        b"",
        0,
    ),
    (b"covering 10.1.2.3\ncovering ::\n", b"empty\nempty\n", b"", 0),
    # All inside a network, ascending by address, then by length.
    (
        b"add 4.1.0.0/16 c\nadd 4.0.0.0/8 a\nadd 4.0.0.0/9 b\nadd 5.0.0.0/8 d\nwithin 4.0.0.0/9\nwithin 4.0.0.0/7\n",
        b"none\nnone\nnone\nnone\n4.0.0.0/9=b 4.1.0.0/16=c\n4.0.0.0/8=a 4.0.0.0/9=b 4.1.0.0/16=c 5.0.0.0/8=d\n",
        b"",
        0,
    ),
    (
        b"list\nwithin ::/0\nadd ::/0 a\nadd 10.0.0.1 b\nwithin ::/0\nwithin 0.0.0.0/0\nwithin ::/1\n",
        b"empty\nempty\nnone\nnone\n::/0=a\n10.0.0.1/32=b\nempty\n",
        b"",
        0,
    ),
    # All, IPv4 before IPv6.
    (
        b"add ::1 d\nadd 10.0.0.0/8 b\nadd ::/0 c\nadd 0.0.0.0/0 a\nlist\ndel ::1\ndel ::/0\nlist\n",
        b"none\nnone\nnone\nnone\n0.0.0.0/0=a 10.0.0.0/8=b ::/0=c ::1/128=d\nsome d\nsome c\n"
        b"0.0.0.0/0=a 10.0.0.0/8=b\n",
        b"",
        0,
    ),
    # A removed network no longer matches, those that contain it do.
    (
        b"add 10.0.0.0/8 a\nadd 10.1.0.0/16 b\ndel 10.1.0.0/16\nroute 10.1.2.3\ndel 10.0.0.0/8\nroute 10.1.2.3\nlen\n",
        b"none\nnone\nsome b\nsome 10.0.0.0/8=a\nsome a\nnone\n0\n",
        b"",
        0,
    ),
    # Only exactly this network has the target.
    (
        b"add 10.0.0.0/8 a\nget 10.0.0.0/9\nget 10.0.0.0/7\nget 10.0.0.0\ndel 10.0.0.0/9\n",
        b"none\nnone\nnone\nnone\nnone\n",
        b"",
        0,
    ),
    # A target is taken byte for byte.
    (
        b"add ::/1 a=b\nget ::/1\nadd ::/1 -\nget ::/1\nroute ::\n",
        b"none\nsome a=b\nsome a=b\nsome -\nsome ::/1=-\n",
        b"",
        0,
    ),
    # A target of 32 bytes.
    (
        b"add ::/8 0123456789abcdef0123456789abcdef\nget ::/8\n",
        b"none\nsome 0123456789abcdef0123456789abcdef\n",
        b"",
        0,
    ),
    # A comment prints nothing, whatever it holds.
    (b"#\n# len\n#len\n \t#\nlen\n##", b"0\n", b"", 0),
    # A network and a target are a route, which prints nothing, new or not.
    (b"10.0.0.0/8 a\n10.0.0.0/8 b\n::1 c\nlist\nadd ::1 d\n", b"10.0.0.0/8=b ::1/128=c\nsome c\n", b"", 0),
    (b"10.0.0.0/8 list\n10.0.0.1 #\nget 10.0.0.0/8\nget 10.0.0.1", b"some list\nsome #\n", b"", 0),
    # All as lines that are routes, IPv4 before IPv6; nothing of empty tables.
    (b"dump\n", b"", b"", 0),
    (b"add ::1 b\nadd 10.0.0.1 a\ndump\ndel 10.0.0.1\ndump", b"none\nnone\n10.0.0.1/32 a\n::1/128 b\nsome a\n"
        b"::1/128 b\n", b"", 0),
    # So a dump is an input, which leaves the same tables.
    (DUMPED + b"dump\nlen\n", DUMPED + b"6\n", b"", 0),
    # A malformed line ends the run.
    (b"len\n\nfoo\nlen", b"0\n", b"line 3: bad command\n", 2),
    (b"add 10.0.0.0/8 a\nroute 10.0.0.0/8\nlen\n", b"none\n", b"line 2: bad address\n", 2),
)

# Malformed lines, and what is said.
BAD = (
    (b"foo", COMMAND),
    (b"ADD ::/1 a", COMMAND),
    (b"adds ::/1 a", COMMAND),
    # Missing and surplus words.
    (b"add", COMMAND),
    (b"add ::/1", COMMAND),
    (b"add ::/1 a b", COMMAND),
    (b"del", COMMAND),
    (b"del ::/1 a", COMMAND),
    (b"get", COMMAND),
    (b"get ::/1 a", COMMAND),
    (b"route", COMMAND),
    (b"route ::1 ::2", COMMAND),
    (b"covering", COMMAND),
    (b"covering ::1 ::2", COMMAND),
    (b"within", COMMAND),
    (b"within ::1 ::2", COMMAND),
    (b"list 1", COMMAND),
    (b"dump 1", COMMAND),
    (b"aggregate 1", COMMAND),
    (b"len 1", COMMAND),
    # A network without a target, and with two.
    (b"::/1", COMMAND),
    (b"::/1 a b", COMMAND),
    # A first word that is no address is no network, but the wrong name of a command.
    (b"foo bar", COMMAND),
    (b"10.0.0/8 a", COMMAND),
    (b"gett 2001:0db8:0000:0000:0000:0000:0000:0001", COMMAND),
    (b"; a", COMMAND),
    # A target of 33 bytes, said after anything of the network.
    (b"add ::/1 0123456789abcdef0123456789abcdef0", TARGET),
    (b"::/1 0123456789abcdef0123456789abcdef0", TARGET),
    (b"add x 0123456789abcdef0123456789abcdef0", ADDRESS),
    (b"10.0.0.0/33 0123456789abcdef0123456789abcdef0", LENGTH),
    # The same counts that a command's are are counted first.
    (b"add x 0123456789abcdef0123456789abcdef0 y", COMMAND),
    # No address.
    (b"add x a", ADDRESS),
    (b"get 10.0.0/8", ADDRESS),
    (b"get 010.0.0.1", ADDRESS),
    (b"get /8", ADDRESS),
    (b"get ::1::/8", ADDRESS),
    (b"get fe80::1%1", ADDRESS),
    (b"route 10.0.0.0/8", ADDRESS),
    (b"covering x", ADDRESS),
    # No length.
    (b"get 10.0.0.0/33", LENGTH),
    (b"get 10.0.0.0/", LENGTH),
    (b"get 10.0.0.0/08", LENGTH),
    (b"get 10.0.0.0/8/8", LENGTH),
    (b"get ::/129", LENGTH),
    (b"get ::/+1", LENGTH),
    # Bits after the network's.
    (b"get 10.0.0.1/8", HOST_BITS),
    (b"get ::1/127", HOST_BITS),
    (b"del 128.0.0.0/0", HOST_BITS),
    (b"within 10.0.0.1/8", HOST_BITS),
    (b"10.0.0.0/33 a", LENGTH),
    (b"10.0.0.1/8 a", HOST_BITS),
)

# What is run with `--keep-going`.
GOING = (
    (TABLE + b"dump\n", DUMPED, b"line 5: bad command\n", 2),
    # Each malformed line is reported, and prints nothing; the others are run.
    (
        b"len\nfoo\n\n10.0.0.1/8 a\n::1 a\nroute x\nadd ::2 " + 33 * b"a" + b"\nlist\nget ::/129",
        b"0\n::1/128=a\n",
        b"line 2: bad command\nline 4: host bits set\nline 6: bad address\nline 7: target too long\n"
        b"line 9: bad length\n",
        2,
    ),
    (b"foo", b"", b"line 1: bad command\n", 2),
    (b"foo\nlen\n", b"0\n", b"line 1: bad command\n", 2),
    (20 * b"foo\n", b"", b"".join(b"line %d: bad command\n" % line for line in range(1, 21)), 2),
)

# Arguments that it doesn't take: nothing is read.
REFUSED = (
    (b"--help",),
    (b"--keep-goin",),
    (b"--keep-goingx",),
    (b"--keep-going=1",),
    (b"--keep-going-and-more-than-there-is-room-for",),
    (b"",),
    (b"-",),
    (b"\xff",),
    (KEEP_GOING, b"len"),
    (b"len", KEEP_GOING),
)

ARGUMENT = b"rart_routes: bad argument: the only one is --keep-going\n"

BAD_ROWS = tuple((line, b"", said, 2) for line, said in BAD)

TABLES = {
    "ROWS": ROWS,
    "BAD": BAD_ROWS,
    # A run without a malformed line is the same, and so is one whose only line is malformed.
    "ROWS, keep going": tuple((*row, KEEP_GOING) for row in ROWS if row[3] == 0),
    "BAD, keep going": tuple((*row, KEEP_GOING) for row in BAD_ROWS),
    "GOING": tuple((*row, KEEP_GOING) for row in GOING) + ((*GOING[0], KEEP_GOING, KEEP_GOING),),
    "REFUSED": tuple((b"len\n", b"", ARGUMENT, 2, *arguments) for arguments in REFUSED),
}

# Answers, and then a malformed line.
SHARED = (b"get ::/1\nlen\nfoo\nlen\n", b"none\n0\n", b"line 3: bad command\n", 2)

SLOW = (b"add ::/0 a\r\n\nadd ::1 b\nlist\nfoo", b"none\nnone\n::/0=a ::1/128=b\n", b"line 5: bad command\n", 2)

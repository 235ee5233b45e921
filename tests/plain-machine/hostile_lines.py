"""Faulty, refused and accepted lines, with the reply to each. The replies were worked out by hand. Before each line, the lines of
BEFORE give tenant 0 all frames of its superblock in one block. The machine has two tenants and two superblocks of eight
frames."""

BEFORE = b"admin grant 0\n0 alloc 3\n"
REPLIES_BEFORE = b"admin> granted 0 slot 0 superblock 0\n0> frame 0\n"

# Maps each reply to the lines that get it, which are separated by bars. Blank lines and comments get no reply.
LINES = {
    "": "| \t |#|# note|\t # note|#0 alloc 0|#\xff\0",
    # The first word is not an actor, or the second is not a command of the actor.
    "!> fault Unknown": "frob|-1 alloc 0|+0 alloc 0|ADMIN pool|admin frob|admin alloc 0|admin report|0 ALLOC 0|0 frob|0 grant 1"
    "|0 pool|0 #|0 # note|0 \xff|\xff|\0|\r\r|0 reap\r\r|0 reap\0|\xef\xbb\xbf0 reap|\xc2\xa00 reap|\xd9\xa0 reap|\x0b0 reap"
    "|4294967295 frob|a b c d e f g h",
    # Too few words, or too many.
    "!> fault Words": "admin|0|\t0 |4294967295|admin grant|admin grant 0 0|admin pool 0|admin move 0|0 alloc|0 alloc 0 0"
    "|0 alloc x y|0 alloc 0 #|0 read 0|0 write 0|0 write 0 00 00|0 cache 16 8|0 cache 16 8 00 00 00|0 reap 0|0 report 0"
    "|0 give 0 0 0 0 0 0 0 0",
    # A word that is not a number, or is a number of more than ten digits or of more than 32 bits.
    "!> fault Number": "0x alloc 0|1e3 report|0\0 reap|0\x0breap|00000000000 reap|00000000001 alloc 0|4294967296 report"
    "|9999999999 report|18446744073709551616 report|0 alloc x|0 alloc #|0 alloc -1|0 alloc +1|0 alloc 0x1|0 alloc 1.0"
    "|0 alloc \xff|0 alloc 0\0|0 alloc 0\r\r|0 alloc 0\r |0 alloc 00000000000|0 alloc 4294967296|0 alloc 18446744073709551616"
    "|0 read 0 4294967296|0 write x zz|0 cache x 8 zz|0 cache 16 x zz|0 give 0 4294967296|admin grant x|admin grant 4294967296"
    "|admin takeback 0 4294967296|admin move x x",
    # Bytes that are not hex digits, that have an odd number of digits, or that are too many.
    "!> fault Hex": "0 write 0 0|0 write 0 abc|0 write 0 0g|0 write 0 zz|0 write 0 0x00|0 write 0 -1|0 write 0 \xff\xff"
    "|0 write 0 00\r\r|0 cache 16 8 0|0 cache 0 0 zz|0 write 0 " + 65 * "00" + "|0 write 9 " + 129 * "0" + "|0 cache 16 8 "
    + 17 * "00",
    # Numbers of tenants that do not exist, even if their lower bits are the number of a tenant. The tenant is tested first.
    "!> refused 12 NoTenant": "2 alloc 0|256 alloc 0|65536 reap|4294967295 report|4294967295 read 0 0|2 cache 0 0 00",
    "admin> refused 12 NoTenant": "admin grant 2|admin grant 256|admin grant 4294967295|admin reset 256|admin reset 4294967295"
    "|admin takeback 2 0|admin takeback 4294967295 4294967295|admin move 256 0|admin move 4294967295 9",
    # Numbers of slots that the tenant does not hold, even if their lower bits are the number of a slot that it holds.
    "admin> refused 14 NoSlot": "admin takeback 0 1|admin takeback 0 256|admin takeback 0 65536|admin takeback 0 4294967295"
    "|admin takeback 1 0|admin move 0 1|admin move 0 65536|admin move 1 0|admin move 0 4294967295",
    # Orders above the order of a superblock, even if a shift by them would wrap.
    "0> refused 2 BadOrder": "0 alloc 4|0 alloc 32|0 alloc 64|0 alloc 256|0 alloc 4294967295|\t0\talloc\t4\t|00 alloc 0000000004",
    # Every frame is taken.
    "0> refused 1 NoFrames": "0 alloc 0|0 alloc 3|0000000000 alloc 0000000000| 0  alloc \t 1|" + "0 alloc 0".ljust(255),
    # A line of more than 255 bytes.
    "!> fault Long": "0 alloc 0".ljust(256),
    # Frames at which no block begins, even if their places would wrap to the place of the block.
    "0> refused 3 NotABlock": "0 free 1|0 free 7|0 free 8|0 free 65536|0 free 1048576|0 free 536870912|0 free 2147483648"
    "|0 free 4294967288|0 free 4294967295",
    # Ranges that are not inside the block, even if their ends would wrap into it.
    "0> refused 4 OutOfReach": "0 read 32705 64|0 read 32767 2|0 read 32768 1|0 read 65536 1|0 read 2147483648 1"
    "|0 read 4294967232 64|0 read 4294967295 1|0 read 4294967295 2|0 read 4294967295 64|0 write 32767 0000|0 write 32768 00"
    "|0 write 4294967295 00|0 write 4294967295 0000|0 write 32705 " + 64 * "00" + "|0 write 4294967232 " + 64 * "00",
    # Lengths that no read may have, whether its address is in a block or not.
    "0> refused 5 BadLength": "0 read 0 0|0 read 0 65|0 read 0 256|0 read 0 4294967295|0 read 4294967295 0"
    "|0 read 4294967295 4294967295",
    # Sizes that no object may have, whatever the alignment.
    "0> refused 6 BadSize": "0 cache 0 8 00|0 cache 4097 8 00|0 cache 4097 3 00|0 cache 0 0 00|0 cache 4294967295 8 00"
    "|0 cache 65552 8 00",
    # Alignments that no cache may have.
    "0> refused 7 BadAlign": "0 cache 16 0 00|0 cache 16 1 00|0 cache 16 4 00|0 cache 16 12 00|0 cache 16 512 00"
    "|0 cache 16 264 00|0 cache 16 4294967295 00|0 cache 16 2147483648 00",
    # Numbers of caches that do not exist.
    "0> refused 9 NoCache": "0 take 0|0 take 32|0 take 256|0 take 4294967295|0 give 4294967295 0|0 give 32 4294967295"
    "|0 destroy 31|0 destroy 256|0 destroy 4294967295",
    # Accepted lines, among them the longest write, read and pattern, and numbers of ten digits.
    "0> written 64": "0 write 32704 " + 64 * "00",
    "0> bytes " + 64 * "00": "0 read 32704 64|0 read 0000032704 0000000064",
    "0> cache 0 chunk 16 order 0 objects 254 colours 1": "0 cache 16 8 " + 16 * "00" + "|0 cache 1 8 aA",
    "0> freed 3": "0 free 0|00 free 0000000000",
}


def answered():
    """Yields each line and the reply to it, both as bytes. The reply is empty if the line has none."""
    for reply, lines in LINES.items():
        for line in lines.split("|"):
            yield line.encode("latin-1"), f"{reply}\n".encode() if reply else b""

//! What `--help` says.

pub const ALL: &str = "\
usage: wok show KIND FILE...    the message in words: verdict, rows, names and values
       wok judge KIND FILE...   the verdict, and the rows of an accepted message, in numbers
       wok rows KIND FILE...    how many rows a message has, and how large a table they need
       wok mask KIND FILE...    the masked copy, for people outside
       wok clean KIND FILE...   the cleaned copy, to forward; it masks nothing
       wok edit KIND FILE       a message as text, to be changed
       wok build FILE           the message of such a text
       wok COMMAND --help       more on one of them
       wok --version            the tool and the rules

KIND is S11, S4, S5/S8 (S5 and S8 will do) or S10. FILE is - for standard input, and holds one of these, which is told by its content:
  a capture (pcap, pcapng; needs libpcap): the messages to and from UDP port 2123, or another --port N
  hex text as pasted from a trace, or from od -tx1, xxd, hexdump -C, tcpdump, tshark; several messages stand apart by a blank line
  one message in raw octets
--message N takes the N-th message alone. Names that begin with - stand after --.

Exit status: 0 accepted, counted or made, 1 refused (or one of several was), 2 bad use, or a file that can't be read or written.
";

pub const SHOW: &str = "\
usage: wok show [--subscriber] [--long] [--json | --csv] [--message N] [--port N] KIND FILE...

The message in words. Of a capture a line each: number, time, peers, name, verdict; --message N shows the page of one.
What the rules cover of a value is shown as 'covered', and of a message that checks 1 to 9 or 21 refuse nothing is shown but its length and what its
first four octets say. Of a void group the page says why it is set aside, whoever looks; with --subscriber, --json and --csv have its octets.
  --subscriber   with the subscriber's values: for those who may see them
  --long         values whole; without it a page cuts those over 32 octets
  --json         an object a message, one a line: verdict, header, rows; values in hex, null where covered,
                 and null for a group, whose rows have its value; 'covered' counts octets
                 (of a void group those of the values inside, of which nothing is shown without --subscriber)
  --csv          a line a row
";

pub const JUDGE: &str = "\
usage: wok judge [--message N] [--port N] KIND FILE...

In numbers. 'accept ROWS KEPT' and a line a row: parent, type, instance, value place, value length, standing;
or 'refuse CODE CAUSE PLACE TYPE INSTANCE'.
";

pub const ROWS: &str = "\
usage: wok rows [--message N] [--port N] KIND FILE...

A line a message: how many rows its table has, and how many numbers and octets that table needs. Every element is a row, kept or set aside, but for
what lies in a group that is set aside.
A message that is refused by 11 or 12 is counted too, and nothing is said of that; of one that is refused by 1 to 9 or 21 the reason stands in its
line, and the exit status is 1.
";

pub const MASK: &str = "\
usage: wok mask [--hex] [-o OUT] [--message N] [--port N] KIND FILE

A copy in which all that the rules cover is zero, for people outside; to standard output, or to OUT. A message that is refused by 11 or 12 has one too;
one that is refused by 1 to 9 or 21 has none, and cannot be masked.
A capture gives a capture: the same packets with masked messages, times and addresses kept. Packets with no message, fragments, and
messages that cannot be masked are left out; the latter are listed with the reason, and the exit status is 1.
  --hex   as hex text that text2pcap reads

Made zero: IMSI, MSISDN, MEI, PCO, IP Address, MM Context (its keys) and private extensions whole; the places in User Location; the address in PDN
Address Allocation; every element that is not listed or repeated; the values inside an Overload Control Information that is void, since it holds
more than ten APNs.
NOT made zero: APN, TEIDs, addresses of gateways and names of nodes (F-TEID, FQDN, and the packets' own), traffic filters, time zone, serving network, charging
identities, trace references, lengths, the sequence number.
";

pub const CLEAN: &str = "\
usage: wok clean [--hex] [-o OUT] [--message N] [--port N] KIND FILE   (several FILEs with --hex)

A copy without the elements that are set aside (not listed, repeated, short or void), at all levels, with the lengths of groups and of the header
put right, for a gateway that takes no others; to standard output, or to OUT. Where no row is set aside, the copy is the message, and
standard error says so.
A capture gives a capture: the same packets with cleaned messages, times and addresses kept, the lengths and checksums of IP and UDP made
right. Packets with no message, fragments, and messages that are refused are left out; the latter are listed with the reason, and the exit
status is 1.
  --hex   as hex text that text2pcap reads

Cleaning masks NOTHING: the subscriber's values are in the copy. It is for forwarding, not for the support desk or people outside: for these
there is wok mask.
";

pub const EDIT: &str = "\
usage: wok edit [--subscriber] [-o OUT] [--message N] [--port N] KIND FILE

One message as text that a person can change and wok build makes a message of; to standard output, or to OUT. It says the kind, type, TEID
and sequence number, then a line an element: type/instance, its value in hex, its name behind #. What stands in a group follows it, further in.
Elements that are set aside (not listed, repeated, short or void) are left out: they stand there behind #, to be brought back by taking that away, but
for what is inside a group. Bits that nothing reads come back as zero.
A message that is refused by 11 or 12 is written too. Of the mandatory element that the verdict names there is a line: to be made longer if it is
short, behind # if it is missing. A message that is refused by 1 to 9 or 21 cannot be written: the reason is said, and the exit
status is 1.
Without --subscriber this is the masked copy: what is covered is ZERO in it, which its first lines and the lines of those elements say.
  --subscriber   with the subscriber's values: for those who may see them
";

pub const BUILD: &str = "\
usage: wok build [--hex] [-o OUT] FILE

The message of a text that wok edit wrote, or that is written like this; to standard output, or to OUT. All lengths are worked out.
  kind S11                  or S4, S5/S8, S10
  type 66                   # to a line's end is a comment
  teid 0x00000001           8 hex digits; none for Echo Request and Echo Response
  sequence 2                0 to 16777215, or in hex with 0x
  93/0                      a group: its elements stand below, further in, by blanks or by tabs
    73/0: 05                type/instance: value in hex digits, blanks between octets or none; after the colon nothing is an empty value
  --hex   as hex text that text2pcap reads

A message is made only if it is accepted with every element kept. Otherwise nothing is written, and what is wrong is said with its line:
the first line that cannot be read, with exit status 2; or, with exit status 1, why the message is refused: its type is not handled, or not on its
kind, it is over 4,096 octets, elements are not listed there, stand twice, are short or hold more than ten APNs, or a mandatory one is missing
(one of these at a time).
";

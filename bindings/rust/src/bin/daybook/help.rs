//! The texts of `--help` and `--version`.

pub const VERSION: &str = concat!("daybook ", env!("CARGO_PKG_VERSION"), "\n");

pub const ALL: &str = "\
daybook: seal, check and read day books kept in files

A service, day by day, in a state folder:
  daybook open    make the state folder of a service
  daybook add     add to the open day
  daybook close   close the open day: its values go to the book
  daybook status  say where the service stands

Whole books:
  daybook seal    seal the days of a ledger: write the book
  daybook check   hash the ledger again, compare it with the book, write the outcomes
  daybook read    list the days that a file of outcomes tells of
  daybook search  the same chain by chain, under the tree layout: say how far it is at a limit
  daybook verify  check and read in one

A season before it is sealed:
  daybook forecast  say what sealing it will take, from the lengths of the days alone

A value that a letter quotes:
  daybook locate    say which days the value at a position of the book is about, or the other way

A layout before it is chosen:
  daybook ambiguity  say how many days a tile of N days lists where 1, 2 or 3 of them were altered

daybook help COMMAND, or daybook COMMAND --help, says more of each; daybook --version the version.
An option is written --option value or --option=value.

A command that reads prints the lines
  REF,scheme,listed,first,low,high,lastgood
  DAY,g                 for each day that may have been altered
on standard output (clean: REF,scheme,0,0,0,0,D). A refusal prints NO,number there.
search prints SEARCH,looked,found,undecided in place of REF, and a DAY line for each day found.
forecast prints the sizes there, with --line as SIZE,scheme,values,bytes,blocks; locate the chain or
its position, with --line as CHAIN,position,kind,index,first,last; ambiguity a table, with --line as
N,k,sets,listed for each N and k.
Messages go to standard error.

Exit status:
  0  clean, or done and every value passes
  1  days may have been altered, or some value fails
  2  refused: the line NO,number says the cause
  3  a file cannot be read or written or does not have its form, or the command line is wrong
  4  a search has found no altered day and is not finished
";

pub const OPEN: &str = "\
daybook open DIR --scheme S --n N --f F

Makes the state folder DIR of a new service, whole or not at all. A folder that is there must be empty,
or be what this would make. A state folder of before version 0.8.0, whose chains start otherwise, is
a fault here and for every other command: its days are sealed again, in a new folder. One of version 0.8
goes on, in season 0.

  --scheme S --n N --f F   the layout: 1 black, 2 tile, 3 tree; days in an interval; intervals per
                           validation
";

pub const ADD: &str = "\
daybook add DIR [--season T] --day K --at B FILE...

Adds the bytes of the files, or of standard input for -, to the open day. All of them are on disk and
part of the state when it ends with 0, and none of them otherwise. A repeat is harmless: what stands in
day K at B already is said, and not added again.

  --day K      the number of the open day
  --season T   its season, as for close
  --at B       the bytes that the open day had before
";

pub const CLOSE: &str = "\
daybook close DIR [--season T] --day K [FILE...]

Closes the open day: its values go to DIR/book, its line to DIR/index. With FILE, or - for standard
input, the day has the bytes of these files, and nothing may have been added before; without, it has what
was added. The day is closed and on disk when it ends with 0. A repeat is harmless: a day that is
closed with the same bytes is said, and not closed again.

A season has 65,536 days, and a book and an index of its own: DIR/book-T and DIR/index-T from season 1
on. When day 65,536 is closed, the next day is day 1 of the next season, and add or close opens it.

  --day K      the number of the open day
  --season T   the season of the day. Without it K is a day of the season in which the next add or close
               is made; but while that has no closed day, K above 1 is a day of the season before. So
               the script of day 65,536 can be run again until day 1 of the next season is closed
";

pub const STATUS: &str = "\
daybook status DIR [--season T]

Tests that the files of the state folder fit each other, those of past seasons too, and prints: scheme,
n, f, season, days (closed in it), open (bytes in the open day), values (in its book), checkable (the
greatest D that can be checked; 0 none), interrupted (yes where a stopped run left something; the next
run takes it away), clean (the last D that the folder keeps as verified clean; 0 none).

  --season T   what season T has (else: the present one)
";

pub const SEAL: &str = "\
daybook seal --scheme S --n N --f F [--d D] SOURCE --book FILE [--force]

Seals the days and writes their values to the book, 32 bytes each. The book is written whole, or
stays as it was. A book that is there is a fault, unless it is the front of the new one.

  --scheme S --n N --f F   the layout: 1 black, 2 tile, 3 tree; days in an interval; intervals per
                           validation
  --d D                    seal the first D days (else: all days of the source)
  --book FILE              the book to write
  --force                  replace another book; one that is read-only is not replaced even so

SOURCE is one of
  --days DIR                     a folder: each file is a day, in byte order of their names; every
                                 entry counts, and one that is no file is a fault
  --ledger FILE --ends FILE      the bytes of all days, and where each day ends: 4 bytes a day,
                                 little-endian

A folder is read in pieces, and its days together may be of any length. There a day over 16,777,216
bytes is refusal 4, in a ledger refusal 10. Fewer days than D is refusal 9.
";

pub const CHECK: &str = "\
daybook check --scheme S --n N --f F [--d D] SOURCE --book FILE --outcomes FILE [--digests FILE]
daybook check --state DIR [--season T] [--d D] SOURCE --outcomes FILE [--digests FILE]

Hashes the days again, compares them with the book and writes the outcomes. Exit status 0: every value
passes; 1: some value fails. With --state, where every value passes, the folder keeps D as verified clean.
Where no value passes, the book may be of another season, of another layout or of a delivery before
0.8.0: standard error says so.

  --scheme S --n N --f F   the layout that the book was sealed under
  --d D                    check the first D days (else: all days of the source, and the book must
                           then have no more values than these have; where D cannot be so many, but
                           the book's length is that of all days and of no other number, and the
                           names of the files are numbered without a gap: the greatest D below)
  --book FILE              the book
  --state DIR              layout and book of this state folder; D is then the greatest that is
                           allowed and not above the days closed
  --season T               with --state: days and book of season T (else: the present season)
  --outcomes FILE          the outcomes to write: a byte for each value, in book order, 1 pass, 0 fail
  --digests FILE           the digests of the days to write, 32 bytes each

SOURCE is as for seal: --days DIR, or --ledger FILE --ends FILE. The days are held in memory. A folder
of more than 4,294,967,295 bytes has no 32-bit ends and is a fault.
";

pub const READ: &str = "\
daybook read --scheme S --n N --f F --d D --outcomes FILE [--passed P] [--days DIR] [--names]
daybook read --state DIR [--season T] [--d D] --outcomes FILE [--passed P] [--days DIR] [--names]

Reads the outcomes of D days and prints which days may have been altered.

  --scheme S --n N --f F   the layout of the book that was checked
  --d D                    the number of days
  --state DIR              layout and book of this state folder; D is then the greatest that is
                           allowed and not above the days closed
  --season T               with --state: days and book of season T (else: the present season)
  --outcomes FILE          a byte for each value, in book order, 1 pass, 0 fail; bytes past the
                           last value are not read
  --passed P               the last day at which a check really passed, 0 if none (else: as for
                           verify)
  --days DIR               the folder of days, for their names alone
  --names                  each line of a day has its name too: DAY,g,name; it is that of --days, or
                           else that of the index of --state
";

pub const SEARCH: &str = "\
daybook search --scheme 3 --n N --f 1 --d D --outcomes FILE [--limit K] [--days DIR] [--names]
daybook search --state DIR [--season T] [--d D] --outcomes FILE [--limit K] [--days DIR] [--names]

Searches the outcomes of D days under the tree layout and prints how far it is:
  SEARCH,looked,found,undecided
  DAY,g                 for each altered day found
The largest chains are looked at from left to right; when one fails, its left half and then its right
half are dealt with fully before whatever follows. Undecided days are the last ones up to D. The number
of altered days lies between found and found + undecided; with none undecided the days are those that
read lists.

  --scheme 3 --n N --f 1   the layout of the book that was checked; scheme 1 or 2 is refusal 20
  --d D                    the number of days
  --state DIR              layout and book of this state folder; D is then the greatest that is
                           allowed and not above the days closed
  --season T               with --state: days and book of season T (else: the present season)
  --outcomes FILE          a byte for each value, in book order, 1 pass, 0 fail; bytes past the
                           last value are not read
  --limit K                look at no more than K chains, 0 for none (else: search to the end)
  --days DIR               the folder of days, for their names alone
  --names                  each line of a day has its name too: DAY,g,name; it is that of --days, or
                           else that of the index of --state

Without --limit the search is done in steps, with a limit that doubles. SIGINT (Ctrl-C) or SIGTERM ends
it after the step that it is in, and the state so far is printed.

Exit status: 1 days are found; 0 none, and none is undecided; 4 none is found so far, and days are
undecided.
";

pub const VERIFY: &str = "\
daybook verify --scheme S --n N --f F [--d D] SOURCE --book FILE [--passed P] [--names] [--figure FILE]
daybook verify --state DIR [--season T] [--d D] SOURCE [--passed P] [--names] [--figure FILE]

Checks the days against the book and prints which days may have been altered. It writes no file but
the figure, and with --state keeps a D that is clean in the folder. On a terminal standard error has a
summary in words and a strip of the days. Where no value passes, it says what that may mean, as for
check.

  --scheme S --n N --f F   the layout that the book was sealed under
  --d D                    verify the first D days (else: as for check)
  --book FILE              the book
  --state DIR              layout and book of this state folder; D is then the greatest that is
                           allowed and not above the days closed
  --season T               with --state: days and book of season T (else: the present season)
  --passed P               the last day at which a check really passed, 0 if none: below D, and a
                           multiple of N. Low, the day after whose close the altering was done,
                           supposes it. Without this option it is D - F times N, which supposes that
                           the validation there was made and passed. With --state, --passed kept
                           takes the last day below D that the folder keeps as verified clean
  --names                  each line of a day has its name too: DAY,g,name, where a comma, a percent
                           sign and every byte that is not printable ASCII is %XX. It is the name of
                           the file of --days, or else that of the index of --state
  --figure FILE            a picture to write, as SVG: each value over the days that it covers, which
                           pass and which fail, the listed days and the bounds

SOURCE is as for seal: --days DIR, or --ledger FILE --ends FILE. The days are held in memory. A folder
of more than 4,294,967,295 bytes has no 32-bit ends and is a fault. Refusal 14 says that no change of
days alone gives what was found: the book is altered, or is of other days or of another layout.
";

pub const FORECAST: &str = "\
daybook forecast --scheme S --n N --f F [--d D] --days DIR [--line]
daybook forecast --scheme S --n N --f F [--d D] --lengths FILE [--line]

Says what sealing the days will take: the bytes of the book, the values that go to the notary, and the
SHA-256 blocks to be hashed. Only the lengths of the days count: no day is read, nothing is hashed and
no file is written.

  --scheme S --n N --f F   the layout: 1 black, 2 tile, 3 tree; days in an interval; intervals per
                           validation
  --d D                    take the first D days (else: all)
  --days DIR               a folder of days, as for seal: the lengths are those of its files
  --lengths FILE           the lengths as text, or - for standard input: a decimal number of bytes for
                           each day, a line each, in plain digits and with nothing beside them
  --line                   print one line for programs: SIZE,scheme,values,bytes,blocks

A day of b bytes takes (b + 9) / 64 blocks, rounded down, plus 1; each link of a chain takes 2. Fewer
lengths than D is refusal 16; a day over 16,777,216 bytes, among the first D, is refusal 17.
";

pub const LOCATE: &str = "\
daybook locate --scheme S --n N --f F --d D --position P [--line]
daybook locate --scheme S --n N --f F --d D --kind K --index I --first G --last H [--line]
daybook locate --state DIR [--season T] [--d D] --position P [--line], or with a chain as above

Says which chain stands at a position of the book, counted from 0, and which days it covers: tree level
2, days 9 to 12. Of a tile chain that leaves out days between its first and its last it says their number
and the days. With a chain in place of a position it says the position. The book itself is not read.

  --scheme S --n N --f F   the layout: 1 black, 2 tile, 3 tree; days in an interval; intervals per
                           validation
  --d D                    the days of the book
  --state DIR              layout of this state folder; D is then the greatest that is allowed and not
                           above the days closed
  --season T               with --state: the days closed in season T (else: in the present one)
  --position P             a position, the first value being at 0
  --kind K                 the kind of a chain: black, tile or tree, or its number 1, 2 or 3
  --index I                i of the tile chain c(i), the level of the tree; black is 0, and need not
                           have it
  --first G --last H       the first and the last day that the chain covers; c(i) from 1 on ends before
                           its tile does
  --line                   print one line for programs: CHAIN,position,kind,index,first,last

A position beyond the values, or a chain that is not in the book, is refusal 18. All four of a chain
must agree. A value that scheme 3 stores once, for black and for the tree, is in the book as tree.
";

pub const AMBIGUITY: &str = "\
daybook ambiguity [--line] [--figure FILE]

Says how vague a tile is, for those who choose N: one tile of N days by itself, under scheme 2 (tile),
k of which were altered. For N 1, 2, 4 up to 64 and k 1, 2, 3 a table has
  sets      the sets of k different days that the tile has; none where N is below k
  listed    the days that read lists, added up over all these sets
  a set     the days that it lists for one of them, on average
No file is read.

  --line          print lines for programs: N,k,sets,listed. Each of the 21 stands once; their order may
                  change
  --figure FILE   a picture to write, as SVG: the days listed by N and by k, over all sets and a set
";

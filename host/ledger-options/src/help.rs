//! The texts of --help and --version.

/// What --version prints.
pub const VERSION: &str = concat!("ledger ", env!("CARGO_PKG_VERSION"), "\n");

/// What --help prints.
pub const HELP: &str = "\
usage: ledger check FILE.. --members M
       ledger show FILE [--members M]
       ledger export FILE --members M >TABLE.csv
       ledger import TABLE.csv

Reads a journal: the charges that a machine of the ledger wrote down, in their order. Or reads a
table of charges that comes back from a spreadsheet (CSV). It never writes to a file that it reads.
- as a file's name is standard input.

  check         whether a journal is good, how many entries it has and the takings
  show          the journal printed for people
  export        the journal's entries as CSV, for a spreadsheet
  import        whether a table is good, and what its entries come to
  --members M   how many members the ledger has, 1 to 4096
  --help        this text; behind check, show, export or import, more of that
  --version     the version

status: 0 good, 1 bad, 2 all else: a file that can't be read, a wrong option
";

/// What `check --help` prints.
pub const CHECK_HELP: &str = "\
usage: ledger check FILE.. --members M

Reads each journal from its first entry on, does every sum again by the fee rules, and says in a
line how many entries it has and what the takings are. Of a journal that isn't good it says at which
byte the first bad frame begins, which op that is and what is wrong with it, and what the good
frames before it come to. A frame is 50 bytes, one for each op.

A good journal says what was written, not that nothing was cut off at its end.

  --members M   how many members the ledger has, 1 to 4096
  --help        this text
  --version     the version

- as FILE is standard input. Where several files are given, the status is that of the worst.

status: 0 good, 1 bad, 2 all else: a file that can't be read, a wrong option
";

/// What `show --help` prints.
pub const SHOW_HELP: &str = "\
usage: ledger show FILE [--members M]

Prints a journal as a table, a line for each op: who sent it (the desk is the client, and numbers
its requests), what it asked for, for which member, the amount in euros, what came of it, the
member's total behind it in euros, and the takings so far: all that was taken, less what was paid
back. It ends at the first frame that can't be read.

The table shows what stands there, and the takings go by that. With --members it is followed by what
check says: whether it is what the fee rules give. Without, outcomes and totals aren't checked.

  --members M   how many members the ledger has, 1 to 4096
  --help        this text
  --version     the version

- as FILE is standard input.

status: 0 good, or without --members readable to its end; 1 bad; 2 all else: a file that can't be
read, a wrong option
";

/// What `export --help` prints.
pub const EXPORT_HELP: &str = "\
usage: ledger export FILE --members M >TABLE.csv

Judges a journal as check does and prints its entries as a table that a spreadsheet program opens:
CSV by RFC 4180, a line with op,client,request,kind,member,cents and then one for each entry. Lines
end by CR LF, nothing is quoted. Outcomes and totals aren't in it.

Of a journal that isn't good nothing is printed, and what check says goes to standard error. The
file behind > is empty then.

  --members M   how many members the ledger has, 1 to 4096
  --help        this text
  --version     the version

- as FILE is standard input.

status: 0 good, 1 bad, 2 all else: a file that can't be read, a wrong option
";

/// What `import --help` prints.
pub const IMPORT_HELP: &str = "\
usage: ledger import TABLE.csv

Reads a table as export prints it and says in a line how many entries it has, how many of them are
fees, refunds and asks, and what these come to. Of a table that isn't good it says which row is the
first bad one, the header being row 1, which field of it, what was expected there and what stands
there. It sends nothing to a ledger and writes no file.

  op        1, 2, 3 and so on, in each row one more
  client    0 to 18446744073709551615
  request   0 to 18446744073709551615
  kind      fee, refund or ask
  member    0 to 4294967295
  cents     1 to 1000000; of ask 0

The words of the header stand as here. Numbers have no sign, blank, leading zero or separator. A
field may stand in quotes. Rows end by CR LF, which may be missing behind the last one. Where a
program ended them by LF alone, this puts it right:

  sed 's/\\r*$/\\r/' TABLE.csv | ledger import -

  --help        this text
  --version     the version

- as TABLE.csv is standard input.

status: 0 good, 1 bad, 2 all else: a file that can't be read, a wrong option
";

//! What the command is asked for. The comments on subcommands and options are what `--help` says.

use std::ffi::OsString;
use std::path::PathBuf;

use clap::{Args, Parser, ValueEnum};
use clap_complete::Shell;

use crate::given::{given, Given};

const STATUS: &str = "\
A deck is a file of card images, 80 bytes a card, or of text, a line a card. '-' is standard input.

Exit status, a sum: 1 if digits were lost, 2 if something was refused or could not be read or written, 4 if a run did not
reach STOP or END.";

/// Compiles and runs decks of IBM 1401 Fortran, by proved code
#[derive(Parser)]
#[command(name = "luvinqata", version, after_help = STATUS)]
pub struct Arguments {
    #[command(subcommand)]
    pub subcommand: Subcommand,
}

#[derive(clap::Subcommand)]
pub enum Subcommand {
    /// Compiles and runs a deck, and prints its values
    ///
    /// The run starts from a store of zeros, but for what --set gives. Prints the halt, the steps and the sequence number
    /// of the first statement that lost digits, or 0; then every name with its value. Lost digits, a halt other than STOP
    /// or END, a value that is read and never set, and a refusal are told in words on standard error, with the cards.
    #[command(after_help = "example: luvinqata run examples/gale.txt")]
    Run(Run),

    /// Compiles a deck to an object
    ///
    /// Writes the object to the file OBJECT if one is named, and prints the object's length; if OBJECT is '-', prints only
    /// the object. The file is written beside and then renamed: a refusal leaves an older one as it is. A refusal is told
    /// in words on standard error, with the cards.
    #[command(after_help = "example: luvinqata compile examples/gale.txt gale.object")]
    Compile(Compile),

    /// Checks an object
    ///
    /// Prints OK, or REFUSED with number, place and kind, told in words on standard error.
    #[command(after_help = "example: luvinqata check gale.object")]
    Check(Object),

    /// Prints an object's names and where their values stand
    ///
    /// Checks the object and prints a line for each of its names: the name, its first cell, its rows and its columns. A
    /// plain name has 0 rows and 0 columns, an array of one dimension 0 columns.
    #[command(after_help = "example: luvinqata map gale.object")]
    Map(Object),

    /// Runs a deck once for each row of a table
    ///
    /// The table's first line names its columns. A column with the name of a value of the deck (I, or "L(2,1)" in quotes)
    /// gives the value to start from; --set gives one for all rows; all other values start from 0, and a value that the
    /// deck reads and never sets may not be among these. Any other column is copied; it may not be named line, halt or
    /// loss, as columns that are written are.
    ///
    /// Writes a table: the line in TABLE where the row begins, the copied columns, every value at the end, the halt, and
    /// the sequence number of the first statement that lost digits, or 0. A row that cannot be read has empty values, and
    /// is told with its line and column on standard error. The statements that lost digits and those where a run stopped
    /// are told with their cards and how many hours each.
    #[command(after_help = "example: luvinqata hours examples/gale-hours.txt examples/gale-hours.csv")]
    Hours(Hours),

    #[command(about = "Answers requests, one a line, on standard input", long_about = BATCH)]
    #[command(after_help = "example: echo 'check 00' | luvinqata batch")]
    Batch,

    /// Prints a shell's completions of this command
    #[command(after_help = "example: luvinqata completions bash")]
    Completions { shell: Shell },
}

const BATCH: &str = "\
Answers requests, one a line, on standard input, each by one line. Bytes are hexadecimal, - for none; numbers are joined
by commas, - for none; a state is index, height, mark and forty stack numbers. CARDS are bytes, every whole 80 a card, and
LINES is how many lines there is room for. An answer's lines are joined by ' | '.

  compile K DECK ROOM                          OK OBJECT, or REFUSED NUMBER PLACE
  check OBJECT                                 OK, or REFUSED NUMBER PLACE KIND
  run OBJECT STORE STATE ALLOWANCE CARDS LINES
                                               HALT.., the state, the stack, the cells, =.. for each line printed;
                                               or REFUSED NUMBER PLACE KIND
  bench OBJECT STORE ALLOWANCE CARDS LINES     the same
  map OBJECT                                   NAME FIRST ROWS COLUMNS for each name, or REFUSED NUMBER PLACE KIND
  program INPUT                                what the program prints for a control card and a deck

A request that cannot be read, is over 1048576 bytes or asks for over 1048576 lines is answered BAD REQUEST.";

#[derive(Args)]
pub struct Deck {
    /// Card images, or lines of text; '-' is standard input
    pub deck: PathBuf,
    /// Numbers of K digits, 1 to 9
    #[arg(long, value_name = "K", default_value_t = 5)]
    pub digits: u32,
    /// The deck is card images, whatever it looks like
    #[arg(long)]
    pub cards: bool,
    /// The deck is lines of text, whatever it looks like
    #[arg(long, conflicts_with = "cards")]
    pub text: bool,
}

#[derive(Args)]
pub struct Running {
    /// At most N steps a run
    #[arg(long, value_name = "N", default_value_t = 1_000_000)]
    pub steps: u32,
    /// The value that a name, or an element like L(2,1), starts from; may be given many times
    #[arg(long, value_name = "NAME=VALUE", value_parser = given)]
    pub set: Vec<Given>,
}

#[derive(Args)]
pub struct Run {
    #[command(flatten)]
    pub deck: Deck,
    #[command(flatten)]
    pub running: Running,
}

#[derive(Args)]
pub struct Compile {
    #[command(flatten)]
    pub deck: Deck,
    /// Where the object is written; '-' is standard output
    pub object: Option<PathBuf>,
}

#[derive(Args)]
pub struct Object {
    /// An object that was compiled; '-' is standard input
    pub object: PathBuf,
}

#[derive(Args)]
pub struct Hours {
    #[command(flatten)]
    pub deck: Deck,
    /// Rows of fields; '-' is standard input
    pub table: PathBuf,
    #[command(flatten)]
    pub running: Running,
    /// What parts the fields, in TABLE and in what is written
    #[arg(long, value_enum, default_value_t = Separator::Comma)]
    pub separator: Separator,
    /// Runs each row with K digits too, and tells the rows that differ, with both values
    #[arg(long, value_name = "K", conflicts_with = "quiet")]
    pub compare: Option<u32>,
    /// Writes only these values, parted by commas; an array's name is all of its elements
    #[arg(long, value_name = "NAMES")]
    pub only: Option<String>,
    /// Writes the columns that give values too, as NAME.given
    #[arg(long)]
    pub keep_inputs: bool,
    /// Writes the table to FILE, beside it first and then renamed
    #[arg(short, long, value_name = "FILE")]
    pub output: Option<PathBuf>,
    /// Writes a JSON object a row, and no line of names
    #[arg(long)]
    pub json: bool,
    /// Draws the hours to the SVG file FILE: X and Y are columns of the table that is written, each hour is a dot, and the
    /// hours that lost digits are red
    #[arg(long, num_args = 2, value_names = ["X,Y", "FILE"])]
    pub chart: Option<Vec<OsString>>,
    /// Tells nothing but why it cannot go on; the exit status tells the rest
    #[arg(long)]
    pub quiet: bool,
    /// Runs N rows at a time; as many as the machine has cores if not given
    #[arg(long, value_name = "N", value_parser = clap::value_parser!(u16).range(1..=1024))]
    pub threads: Option<u16>,
}

#[derive(Clone, Copy, ValueEnum)]
pub enum Separator {
    #[value(alias = ",")]
    Comma,
    #[value(alias = ";")]
    Semicolon,
    Tab,
}

impl Separator {
    pub fn byte(self) -> u8 {
        match self {
            Separator::Comma => b',',
            Separator::Semicolon => b';',
            Separator::Tab => b'\t',
        }
    }
}

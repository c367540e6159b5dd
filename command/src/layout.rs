//! Where everything stands in a table, by docs/LAYOUT.md.
//!
//! A word of the header, of the settings or of a row has one line here: its name in the code and its
//! name in text. The places follow from the order of the lines.

/// The letters SPLDVT, and the layout's number in the last two bytes.
pub const VERSION: u64 = 0x5350_4c44_5654_0003;
/// What ends a run.
pub const ALL_ONES: u64 = u64::MAX;

macro_rules! words {
    ($(#[$about:meta])* $kind:ident { $($word:ident: $name:literal,)* }) => {
        $(#[$about])*
        #[derive(Clone, Copy, Debug, PartialEq, Eq)]
        pub enum $kind { $($word,)* }

        impl $kind {
            pub const ALL: &'static [$kind] = &[$($kind::$word,)*];
            pub const WORDS: usize = Self::ALL.len();

            pub fn name(self) -> &'static str {
                match self { $($kind::$word => $name,)* }
            }
        }
    };
}

words! {
    /// The words before the settings.
    Header {
        Version: "version",
        Rows: "row count",
        Mode: "mode",
        Threshold: "dirty-byte threshold",
        Maximum: "maximum",
        Accesses: "accesses of this epoch",
        Hits: "hits of this epoch",
        Count: "byte count",
        Next: "number of the next message",
        Exceeded: "whether the maximum was exceeded",
    }
}

words! {
    /// The words of the settings.
    Setting {
        Evictions: "evictions",
        Preset: "whether the initial size is set",
        Initial: "initial size",
        Clean: "minimum clean fraction",
        Largest: "maximum size",
        Smallest: "minimum size",
        Epoch: "epoch length",
        IncreaseKind: "increase rule",
        IncreaseLower: "lower rate of the increase rule",
        IncreaseMultiplier: "multiplier of the increase rule",
        IncrementKind: "whether an increase has a cap",
        IncrementBytes: "cap on one increase",
        FlashKind: "flash rule",
        FlashMultiple: "multiple of the flash rule",
        FlashThreshold: "threshold of the flash rule",
        DecreaseKind: "decrease rule",
        DecreaseUpper: "upper rate of the decrease rule",
        DecreaseEpochs: "epochs of the decrease rule",
        DecreaseLast: "multiplier or reserve of the decrease rule",
        DecrementKind: "whether a decrease has a cap",
        DecrementBytes: "cap on one decrease",
    }
}

words! {
    /// The words of a row.
    Row {
        Address: "address",
        Size: "size",
        Dirty: "dirty mark",
        Idle: "idle count",
        Pinned: "pin mark",
        Hold: "hold",
    }
}

words! {
    /// The runs behind the rows, with a word for each row of the table.
    Run {
        Recency: "recency run",
        Address: "address run",
    }
}

const ROWS_AT: usize = Header::WORDS + Setting::WORDS;
const WORDS_FOR_EACH_ROW: usize = Row::WORDS + Run::WORDS;

/// The words of a table with so many rows.
pub const fn table_words(rows: usize) -> usize {
    ROWS_AT + WORDS_FOR_EACH_ROW * rows
}

impl Header {
    pub const fn place(self) -> usize {
        self as usize
    }
}

impl Setting {
    pub const fn place(self) -> usize {
        Header::WORDS + self as usize
    }
}

impl Row {
    pub const fn place(self, row: usize) -> usize {
        ROWS_AT + Row::WORDS * row + self as usize
    }
}

impl Run {
    pub const fn place(self, rows: usize, at: usize) -> usize {
        ROWS_AT + (Row::WORDS + self as usize) * rows + at
    }
}

/// Whether the word at a place is a float.
pub fn is_float(place: usize) -> bool {
    use Setting::*;
    let floats = [Clean, IncreaseLower, IncreaseMultiplier, FlashMultiple, FlashThreshold, DecreaseUpper, DecreaseLast];
    floats.iter().any(|word| word.place() == place)
}

/// What the word at a place of a table with so many rows is.
pub fn name_of(place: usize, rows: usize) -> String {
    if let Some(word) = Header::ALL.get(place) {
        return word.name().to_string();
    }
    if let Some(word) = Setting::ALL.get(place - Header::WORDS) {
        return word.name().to_string();
    }
    let among_rows = place - ROWS_AT;
    let (row, word) = (among_rows / Row::WORDS, among_rows % Row::WORDS);
    if row < rows {
        return format!("{} of row {row}", Row::ALL[word].name());
    }
    let among_runs = among_rows - Row::WORDS * rows;
    match among_runs.checked_div(rows).and_then(|run| Run::ALL.get(run)) {
        Some(run) => format!("place {} of the {}", among_runs % rows, run.name()),
        None => "past the table's end".to_string(),
    }
}

/// The words of a dump that are long enough for the row count they name.
#[derive(Clone, Copy)]
pub struct Table<'a> {
    words: &'a [u64],
    pub rows: usize,
}

impl<'a> Table<'a> {
    /// The first words of these are a table with so many rows.
    pub fn new(words: &'a [u64], rows: usize) -> Table<'a> {
        Table { words: &words[..table_words(rows)], rows }
    }

    pub fn words(&self) -> &'a [u64] {
        self.words
    }

    pub fn header(&self, word: Header) -> u64 {
        self.words[word.place()]
    }

    pub fn setting(&self, word: Setting) -> u64 {
        self.words[word.place()]
    }

    pub fn row(&self, row: usize, word: Row) -> u64 {
        self.words[word.place(row)]
    }

    pub fn run(&self, run: Run) -> &'a [u64] {
        &self.words[run.place(self.rows, 0)..run.place(self.rows, self.rows)]
    }

    /// The rows that a run names before its first word that is no row number.
    pub fn rows_of(&self, run: Run) -> impl Iterator<Item = usize> + 'a {
        let rows = self.rows;
        self.run(run).iter().map(|word| *word as usize).take_while(move |row| *row < rows)
    }

    /// A free row has size 0.
    pub fn is_used(&self, row: usize) -> bool {
        self.row(row, Row::Size) != 0
    }

    /// The recency list has the entries that are neither pinned nor held.
    pub fn is_listed(&self, row: usize) -> bool {
        self.is_used(row) && self.row(row, Row::Pinned) == 0 && self.row(row, Row::Hold) == 0
    }
}

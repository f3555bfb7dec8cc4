// Made by tools/plain-rust of crates/fax_page/src/uncounted_salvage.rt: change that.
//! What is left of rows of a strip of unknown height, where they are damaged.

use crate::salvage_reader::{SalvageReader, Salvaged};
use crate::{MOST_ROWS, RowsEnd, StripFault, StripForm};
use fax_rows::{Memory, Row};
use kit_std::alloc::Global;
use kit_std::marker::Model;

/// Goes through rows of a strip of unknown height, and that may be damaged, row by row, up to their
/// end. Contracts see how far they are gone through.
pub struct UncountedSalvage<'a> {
    reader: SalvageReader<'a>,
    /// How many rows were passed.
    row: u32,
    /// The fault with which the rows end, once a row was lost after which none is expected.
    final_fault: Option<StripFault>,
}

impl<'a> Model for UncountedSalvage<'a> {}

/// What became of a row, and of no other, of those that are lost with it.
// ensures { result ≡ Code.alone salvaged }
fn alone(salvaged: Salvaged) -> Salvaged {
    match salvaged {
        Salvaged::Found => Salvaged::Found,
        Salvaged::Lost { fault, .. } => Salvaged::Lost { fault, rows: 1 },
        Salvaged::Unterminated { .. } => Salvaged::Unterminated { rows: 1 },
    }
}

/// Why a row is lost, if it is.
// ensures { result ≡ Code.fault_of salvaged }
fn fault_of(salvaged: Salvaged) -> Option<StripFault> {
    match salvaged {
        Salvaged::Found => None,
        Salvaged::Lost { fault, .. } => Some(fault),
        Salvaged::Unterminated { .. } => Some(StripFault::MissingEol),
    }
}

/// The fault with which the rows end after one that was passed, where there may be no more.
// ensures { Code.IsFinalFaultAfter reader.now salvaged result }
fn final_fault_after(reader: &SalvageReader, salvaged: Salvaged) -> Option<StripFault> {
    if reader.row() == MOST_ROWS {
        fault_of(salvaged)
    } else {
        None
    }
}

impl<'a> UncountedSalvage<'a> {
    /// Before the first row of at most 4,294,967,295 bytes. It takes all the memory that rows of
    /// this width need. How many rows the form says does not matter.
    ///
    /// # Errors
    ///
    /// `Memory` where a growth was refused.
    // requires count { length bytes.now ≤ 4294967295 }
    // requires limits { IsStripForm form }
    // ensures { IfOk result (λ s. s ≡ uncounted_beginning form (bits form.order bytes.now)) }
    pub fn new(alloc: Global, bytes: &'a [u8], form: StripForm) -> Result<Self, Memory> {
        let most = StripForm {
            rows: MOST_ROWS,
            ..form
        };
        let reader = SalvageReader::new(alloc, bytes, most)?;
        Ok(UncountedSalvage {
            reader,
            row: 0,
            final_fault: None,
        })
    }

    /// Goes before the first row of other bytes, at most 4,294,967,295, with rows of the same
    /// coding, order and width. It takes no memory.
    // requires { length bytes.now ≤ 4294967295 }
    // ensures { self.new ≡ uncounted_beginning self.old.strip.form
    //     (bits self.old.strip.form.order bytes.now) }
    pub fn restart(&mut self, bytes: &'a [u8]) {
        self.reader.restart(bytes, MOST_ROWS);
        self.row = 0;
        self.final_fault = None;
    }

    /// What became of the next row. It takes no memory. A row that is found is the reference then.
    /// Each lost row is returned alone.
    ///
    /// # Errors
    ///
    /// How the rows end, where none is expected. Each later call returns the same.
    // ensures { IsUncountedStep self.old result self.new }
    pub fn next_salvaged(&mut self) -> Result<Salvaged, RowsEnd> {
        if let Some(fault) = self.final_fault {
            return Err(RowsEnd::Fault(fault));
        }
        match self.reader.rows_end() {
            RowsEnd::TooMany => {}
            end => return Err(end),
        }
        let Some(salvaged) = self.reader.next_salvaged() else {
            return Err(RowsEnd::TooMany);
        };
        self.row += 1;
        self.final_fault = final_fault_after(&self.reader, salvaged);
        Ok(alone(salvaged))
    }

    /// Passes all rows that are left, and returns how they end. It takes no memory.
    // ensures { PassesAll self.old result self.new }
    pub fn pass_all(&mut self) -> RowsEnd {
        loop {
            if let Err(end) = self.next_salvaged() {
                return end;
            }
        }
    }

    /// The row that was found last, or a white one.
    // ensures pels { result.now ≡ self.now.strip.reference }
    // ensures width { length result.now ≡ self.now.strip.form.width }
    pub fn reference(&self) -> &Row {
        self.reader.reference()
    }

    /// How many rows were passed, at most 1,000,000.
    // ensures row { result ≡ self.now.row }
    // ensures few { result ≤ most_rows }
    pub fn row(&self) -> u32 {
        self.row
    }
}

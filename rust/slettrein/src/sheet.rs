//! The signing sheet of a table.

use crate::{lent, Refusal, Signing, Table};

/// As many bytes are enough for the lines before the signatures.
const HEADER: usize = 64;

/// As many bytes are enough for the line of a signature.
const LINE: usize = 17;

impl Table {
    /// The signing on a sheet: LINE where the sheet is not as it must be, SIGN where what it says cannot be signed.
    ///
    /// ```
    /// use slettrein::{Grammar, Refusal, Table};
    ///
    /// let grammar = Grammar::new(2, 4).rule(2, &[3]).rule(3, &[1]);
    /// let table = Table::new(grammar, vec![0, 1, 0, 2, -2, 0, 0, 0, -1, 0, 0, 0])?;
    /// let sheet = "sheet=1\nterminals=2\nsymbols=4\nrules=2\nstates=3\n\
    ///              state.0=none\nstate.1=2\nstate.2=none\ngoto.3=none\n";
    /// let signing = table.read_sheet(sheet.as_bytes())?;
    /// assert_eq!(signing.rule(1), Some(2));
    /// assert_eq!(table.write_sheet(&signing)?, sheet);
    /// assert_eq!(table.read_sheet(&sheet.as_bytes()[1..]), Err(Refusal::Line { line: 1 }));
    /// # Ok::<(), Refusal>(())
    /// ```
    pub fn read_sheet(&self, text: &[u8]) -> Result<Signing, Refusal> {
        let mut signing = self.unsigned();
        let [rules, gotos] = signing.lend_mut();
        let said = lent::sheet_read(self.sizes(), text, rules, gotos);
        Refusal::unless_ok(said, self.grammar().symbols())?;
        Ok(signing)
    }

    /// The sheet of a signing of the table.
    pub fn write_sheet(&self, signing: &Signing) -> Result<String, Refusal> {
        let lines = self.states() + self.grammar().symbols();
        let mut buffer = vec![0; HEADER + LINE * lines];
        let said = lent::sheet_write(self.sizes(), signing.lend(), &mut buffer);
        let values = Refusal::unless_ok(said, self.grammar().symbols())?;
        let [length] = values[..] else { unreachable!("document 01 has no sheet with {values:?}") };
        Ok(String::from_utf8_lossy(&buffer[..length]).into_owned())
    }
}

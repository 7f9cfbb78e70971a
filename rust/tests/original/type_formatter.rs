// docs/src/type_formatter.rs as it is, and behind it calls for the text of a type: the original has the writer and offers no call for it.
include!("../../../docs/src/type_formatter.rs");

impl TypeFormatter<'_, '_> {
    pub fn format_type(&self, module_index: usize, index: TypeIndex) -> Result<String> {
        let mut s = String::new();
        self.emit_type(&mut s, module_index, index)?;
        Ok(s)
    }

    pub fn emit_type(&self, w: &mut impl Write, module_index: usize, index: TypeIndex) -> Result<()> {
        let mut seen = BTreeSet::new();
        self.for_module(module_index, |tf| tf.emit_type_index(w, index, &mut Seen::new(&mut seen)))
    }
}

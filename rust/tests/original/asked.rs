//! Calls asked of the original, and answers of both sides in one form.
use crate::common::{Call, Streams};
use crate::error;
use crate::pdb_stand_in::{self as pdb, DebugInformation, IdIndex, IdInformation, MachineType, Module, ModuleInfo, Stream, TypeIndex, TypeInformation};
use crate::type_formatter::{ModuleProvider, TypeFormatter, TypeFormatterFlags};
use std::marker::PhantomData;

struct NoModules;

impl<'s> ModuleProvider<'s> for NoModules {
    fn get_module_info(&self, _: usize, _: &Module) -> Result<Option<&ModuleInfo<'s>>, pdb::Error> {
        Ok(None)
    }
}

/// A text or size, or the kind of an error, by the number of the refusal that document 01 compares it with. Where the original's error has an index or a
/// kind, it is compared with the detail.
pub type Answer = Result<String, (u32, u32)>;

fn kind(error: error::Error) -> (u32, u32) {
    match error {
        error::Error::PdbError(pdb::Error::UnimplementedTypeKind(kind)) => (7, kind.into()),
        error::Error::PdbError(pdb::Error::TypeNotFound(index)) => (8, index),
        error::Error::PdbError(_) => (5, 0),
        error::Error::CantResolveCrossModuleRefWithoutStringTable => (6, 0),
        error::Error::ArgumentTypeNotArgumentList => (9, 0),
        error::Error::FunctionIdIsNotProcedureType => (10, 0),
        error::Error::MemberFunctionIdIsNotMemberFunctionType => (11, 0),
        error::Error::CircularTypeDefinition(index) => (12, index),
        other => panic!("an error outside the compared domain: {other:?}"),
    }
}

/// Our refusal as the original's error says it.
pub fn refusal(error: yokberd::Error) -> (u32, u32) {
    match error.number() {
        number @ (7 | 8 | 12) => (number, error.detail()),
        number => (number, 0),
    }
}

/// Both streams, as the crate `pdb` hands them to a formatter.
pub struct Original<'a> {
    types: TypeInformation<'a>,
    ids: IdInformation<'a>,
}

impl<'a> Original<'a> {
    pub fn new(streams: &'a Streams) -> Self {
        Original { types: Stream::new(&streams.types), ids: Stream::new(&streams.ids) }
    }

    pub fn formatter(&self, flags: u32, machine: MachineType) -> TypeFormatter<'_, 'a> {
        let debug = DebugInformation { machine, source: PhantomData };
        let flags = TypeFormatterFlags::from_bits_retain(flags);
        TypeFormatter::new_from_parts(&NoModules, Vec::new(), &debug, &self.types, &self.ids, None, flags).unwrap()
    }
}

/// What a formatter of the original answers.
pub fn answer(formatter: &TypeFormatter, call: Call) -> Answer {
    match call {
        Call::Id(index) => formatter.format_id(0, IdIndex(index)).map_err(kind),
        Call::Function(name, index) => formatter.format_function(std::str::from_utf8(name).unwrap(), 0, TypeIndex(index)).map_err(kind),
        Call::Type(index) => formatter.format_type(0, TypeIndex(index)).map_err(kind),
        Call::Size(index) => Ok(formatter.get_type_size(0, TypeIndex(index)).to_string()),
    }
}

//! The errors that type_formatter.rs gives, as error.rs of the original has them; that file needs the crate `thiserror`.
use crate::type_formatter::AlreadySeenError;

#[derive(Debug)]
#[allow(dead_code, clippy::enum_variant_names)]
pub enum Error {
    FormatError(std::fmt::Error),
    PdbError(pdb::Error),
    ArgumentTypeNotArgumentList,
    FunctionIdIsNotProcedureType,
    MemberFunctionIdIsNotMemberFunctionType,
    CantResolveCrossModuleRefWithoutStringTable,
    ModuleImportsUnsuccessful,
    ModuleNameNotFound(String),
    ModuleExportsUnsuccessful,
    LocalIndexNotInExports(u32),
    OutOfRangeModuleIndex(usize),
    ModuleInfoNotFound(usize),
    CircularTypeDefinition(u32),
}

impl From<pdb::Error> for Error {
    fn from(error: pdb::Error) -> Self {
        Error::PdbError(error)
    }
}

impl From<std::fmt::Error> for Error {
    fn from(error: std::fmt::Error) -> Self {
        Error::FormatError(error)
    }
}

impl From<AlreadySeenError> for Error {
    fn from(error: AlreadySeenError) -> Self {
        Error::CircularTypeDefinition(error.0 .0)
    }
}

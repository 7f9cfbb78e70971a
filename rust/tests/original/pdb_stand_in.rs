//! What type_formatter.rs takes from the crate `pdb`, written anew from cvinfo.h for well-formed streams.
//!
//! The tests hold our texts to the original's over it, and `tools/bench.sh` our times: so records are found and taken apart with as much work as in the
//! crate, as far as that is known here, the fields that nobody asks for too.
//!
//! Modules and their imports are never asked for: there is no string table, so an index of another module is an error before that.
use std::borrow::Cow;
use std::fmt;
use std::marker::PhantomData;

#[derive(Debug, Clone, Copy, PartialEq, Eq)]
pub enum Error {
    UnimplementedTypeKind(u16),
    TypeNotFound(u32),
    UnexpectedEof,
}

type Result<T> = std::result::Result<T, Error>;

pub trait FallibleIterator {
    type Item;
    type Error;
    fn next(&mut self) -> std::result::Result<Option<Self::Item>, Self::Error>;
}

// Indexes

pub trait ItemIndex: Copy + PartialOrd + From<u32> + Into<u32> {
    fn is_cross_module(self) -> bool {
        let index: u32 = self.into();
        index & 0x8000_0000 != 0
    }
}

macro_rules! index {
    ($name:ident) => {
        #[derive(Clone, Copy, Debug, PartialEq, Eq, PartialOrd, Ord, Hash)]
        pub struct $name(pub u32);

        impl From<u32> for $name {
            fn from(index: u32) -> Self {
                $name(index)
            }
        }

        impl From<$name> for u32 {
            fn from(index: $name) -> Self {
                index.0
            }
        }

        impl ItemIndex for $name {}
    };
}

index!(TypeIndex);
index!(IdIndex);

// Streams

const FIRST: u32 = 0x1000;

// A finder notes the place of every eighth record that was passed.
const STRIDE: u32 = 8;

// A record's kind and fields, given the place of its length.
fn record_at(records: &[u8], at: usize) -> Result<&[u8]> {
    let len = records.get(at..at + 2).ok_or(Error::UnexpectedEof)?;
    let end = at + 2 + usize::from(u16::from_le_bytes([len[0], len[1]]));
    records.get(at + 2..end).ok_or(Error::UnexpectedEof)
}

/// The records of a stream, as bytes. They are walked as `ItemMap` of type_formatter.rs asks for: record by record up to the one that is looked for.
pub struct Stream<'s, I> {
    records: &'s [u8],
    count: u32,
    of: PhantomData<I>,
}

pub type TypeInformation<'s> = Stream<'s, TypeIndex>;
pub type IdInformation<'s> = Stream<'s, IdIndex>;

impl<'s, I: ItemIndex> Stream<'s, I> {
    /// The records of a stream that is well-formed, with the first index 0x1000.
    pub fn new(stream: &'s [u8]) -> Self {
        let word = |at: usize| u32::from_le_bytes(stream[at..at + 4].try_into().unwrap());
        assert_eq!(word(8), FIRST);
        let stream = Stream { records: &stream[56..56 + word(16) as usize], count: word(12) - FIRST, of: PhantomData };
        let mut iter = stream.iter();
        while iter.next().unwrap().is_some() {}
        assert_eq!(iter.next - FIRST, stream.count);
        stream
    }

    pub fn iter(&self) -> ItemIter<'_, I> {
        ItemIter { records: self.records, at: 0, next: FIRST, of: PhantomData }
    }

    pub fn finder(&self) -> ItemFinder<'_, I> {
        let mut places = Vec::with_capacity(self.count.div_ceil(STRIDE) as usize);
        if self.count > 0 {
            places.push(0);
        }
        ItemFinder { records: self.records, places, max: FIRST, of: PhantomData }
    }
}

pub struct ItemIter<'t, I> {
    records: &'t [u8],
    at: usize,
    next: u32,
    of: PhantomData<I>,
}

impl<'t, I: ItemIndex> FallibleIterator for ItemIter<'t, I> {
    type Item = Item<'t, I>;
    type Error = Error;

    fn next(&mut self) -> Result<Option<Item<'t, I>>> {
        if self.at >= self.records.len() {
            return Ok(None);
        }
        let data = record_at(self.records, self.at)?;
        self.at += 2 + data.len();
        self.next += 1;
        Ok(Some(Item { index: I::from(self.next - 1), data }))
    }
}

pub struct ItemFinder<'t, I> {
    records: &'t [u8],
    places: Vec<u32>,
    max: u32,
    of: PhantomData<I>,
}

impl<'t, I: ItemIndex> ItemFinder<'t, I> {
    /// The index behind the last record that was passed: its place is known too.
    pub fn max_index(&self) -> I {
        I::from(self.max)
    }

    /// An index below the first has no record. A type's `parse` takes it for a primitive.
    pub fn find(&self, index: I) -> Result<Item<'t, I>> {
        let number: u32 = index.into();
        match number.checked_sub(FIRST) {
            None => Ok(Item { index, data: &[] }),
            Some(at) => self.record(at).map(|data| Item { index, data }).map_err(|_| Error::TypeNotFound(number)),
        }
    }

    fn record(&self, number: u32) -> Result<&'t [u8]> {
        let mut at = *self.places.get((number / STRIDE) as usize).ok_or(Error::UnexpectedEof)? as usize;
        for _ in 0..number % STRIDE {
            at += 2 + record_at(self.records, at)?.len();
        }
        record_at(self.records, at)
    }

    pub fn update(&mut self, iter: &ItemIter<'t, I>) {
        let number = iter.next - FIRST;
        if number % STRIDE == 0 && (number / STRIDE) as usize == self.places.len() {
            self.places.push(iter.at as u32);
        }
        self.max = self.max.max(iter.next);
    }
}

pub struct Item<'t, I> {
    index: I,
    data: &'t [u8],
}

impl<I: ItemIndex> Item<'_, I> {
    pub fn index(&self) -> I {
        self.index
    }
}

// Fields

struct Fields<'t>(&'t [u8]);

impl<'t> Fields<'t> {
    fn take(&mut self, len: usize) -> Result<&'t [u8]> {
        if self.0.len() < len {
            return Err(Error::UnexpectedEof);
        }
        let (taken, rest) = self.0.split_at(len);
        self.0 = rest;
        Ok(taken)
    }

    fn u16(&mut self) -> Result<u16> {
        Ok(u16::from_le_bytes(self.take(2)?.try_into().unwrap()))
    }

    fn u32(&mut self) -> Result<u32> {
        Ok(u32::from_le_bytes(self.take(4)?.try_into().unwrap()))
    }

    fn type_index(&mut self) -> Result<TypeIndex> {
        Ok(TypeIndex(self.u32()?))
    }

    /// 0 and 0xffff stand for none.
    fn optional<I: From<u32>>(&mut self) -> Result<Option<I>> {
        let index = self.u32()?;
        Ok(if index == 0 || index == 0xffff { None } else { Some(I::from(index)) })
    }

    fn name(&mut self) -> Result<RawString<'t>> {
        let len = self.0.iter().position(|byte| *byte == 0).ok_or(Error::UnexpectedEof)?;
        let name = RawString(self.take(len)?);
        self.take(1)?;
        Ok(name)
    }

    fn unique_name(&mut self, properties: TypeProperties) -> Result<Option<RawString<'t>>> {
        if properties.0 & 0x200 == 0 {
            return Ok(None);
        }
        self.name().map(Some)
    }

    fn variant(&mut self) -> Result<Variant> {
        Ok(match self.u16()? {
            small if small < 0x8000 => Variant::U16(small),
            0x8000 => Variant::I8(self.take(1)?[0] as i8),
            0x8001 => Variant::I16(self.u16()? as i16),
            0x8002 => Variant::U16(self.u16()?),
            0x8003 => Variant::I32(self.u32()? as i32),
            0x8004 => Variant::U32(self.u32()?),
            0x8009 => Variant::I64(i64::from_le_bytes(self.take(8)?.try_into().unwrap())),
            0x800a => Variant::U64(u64::from_le_bytes(self.take(8)?.try_into().unwrap())),
            _ => return Err(Error::UnexpectedEof),
        })
    }

    fn unsigned(&mut self) -> Result<u64> {
        match self.variant()? {
            Variant::U16(n) => Ok(n.into()),
            Variant::U32(n) => Ok(n.into()),
            Variant::U64(n) => Ok(n),
            _ => Err(Error::UnexpectedEof),
        }
    }

    fn list(&mut self) -> Result<Vec<TypeIndex>> {
        let count = self.u32()? as usize;
        let mut list = Vec::with_capacity(count.min(self.0.len() / 4));
        for _ in 0..count {
            list.push(self.type_index()?);
        }
        Ok(list)
    }
}

#[derive(Clone, Copy, PartialEq, Eq, Hash, Debug)]
pub struct RawString<'t>(&'t [u8]);

impl<'t> RawString<'t> {
    pub fn to_string(self) -> Cow<'t, str> {
        String::from_utf8_lossy(self.0)
    }
}

impl fmt::Display for RawString<'_> {
    fn fmt(&self, f: &mut fmt::Formatter<'_>) -> fmt::Result {
        f.write_str(&String::from_utf8_lossy(self.0))
    }
}

// Records

#[derive(Debug, Clone, Copy)]
pub enum Variant {
    U8(u8),
    U16(u16),
    U32(u32),
    U64(u64),
    I8(i8),
    I16(i16),
    I32(i32),
    I64(i64),
}

#[derive(Debug, Clone, Copy)]
pub struct TypeProperties(u16);

impl TypeProperties {
    pub fn forward_reference(self) -> bool {
        self.0 & 0x80 != 0
    }
}

#[derive(Debug, Clone, Copy)]
pub struct FunctionAttributes(u16);

impl FunctionAttributes {
    pub fn is_constructor(self) -> bool {
        self.0 & 0x200 != 0
    }
}

#[derive(Debug, Clone, Copy, PartialEq, Eq)]
pub enum PointerMode {
    Pointer,
    LValueReference,
    Member,
    MemberFunction,
    RValueReference,
}

#[derive(Debug, Clone, Copy)]
pub struct PointerAttributes(u32);

impl PointerAttributes {
    pub fn pointer_mode(self) -> PointerMode {
        match self.0 >> 5 & 7 {
            0 => PointerMode::Pointer,
            1 => PointerMode::LValueReference,
            2 => PointerMode::Member,
            3 => PointerMode::MemberFunction,
            _ => PointerMode::RValueReference,
        }
    }

    pub fn pointer_to_member(self) -> bool {
        matches!(self.pointer_mode(), PointerMode::Member | PointerMode::MemberFunction)
    }

    pub fn is_const(self) -> bool {
        self.0 >> 10 & 1 != 0
    }

    pub fn size(self) -> u8 {
        (self.0 >> 13 & 0x3f) as u8
    }
}

#[derive(Debug, Clone, Copy)]
pub enum ClassKind {
    Class,
    Struct,
    Interface,
}

#[derive(Debug)]
pub struct ClassType<'t> {
    pub kind: ClassKind,
    pub count: u16,
    pub properties: TypeProperties,
    pub fields: Option<TypeIndex>,
    pub derived_from: Option<TypeIndex>,
    pub vtable_shape: Option<TypeIndex>,
    pub size: u64,
    pub name: RawString<'t>,
    pub unique_name: Option<RawString<'t>>,
}

#[derive(Debug)]
pub struct UnionType<'t> {
    pub count: u16,
    pub properties: TypeProperties,
    pub fields: TypeIndex,
    pub size: u64,
    pub name: RawString<'t>,
    pub unique_name: Option<RawString<'t>>,
}

#[derive(Debug)]
pub struct EnumerationType<'t> {
    pub count: u16,
    pub properties: TypeProperties,
    pub underlying_type: TypeIndex,
    pub fields: TypeIndex,
    pub name: RawString<'t>,
    pub unique_name: Option<RawString<'t>>,
}

#[derive(Debug)]
pub struct EnumerateType<'t> {
    pub attributes: u16,
    pub value: Variant,
    pub name: RawString<'t>,
}

#[derive(Debug)]
pub struct PointerType {
    pub underlying_type: TypeIndex,
    pub attributes: PointerAttributes,
    pub containing_class: Option<TypeIndex>,
}

#[derive(Debug)]
pub struct ModifierType {
    pub underlying_type: TypeIndex,
    pub constant: bool,
    pub volatile: bool,
    pub unaligned: bool,
}

#[derive(Debug)]
pub struct ProcedureType {
    pub return_type: Option<TypeIndex>,
    pub attributes: FunctionAttributes,
    pub parameter_count: u16,
    pub argument_list: TypeIndex,
}

#[derive(Debug)]
pub struct MemberFunctionType {
    pub return_type: TypeIndex,
    pub class_type: TypeIndex,
    pub this_pointer_type: Option<TypeIndex>,
    pub attributes: FunctionAttributes,
    pub parameter_count: u16,
    pub argument_list: TypeIndex,
    pub this_adjustment: u32,
}

#[derive(Debug)]
pub struct ArgumentList {
    pub arguments: Vec<TypeIndex>,
}

#[derive(Debug)]
pub struct ArrayType {
    pub element_type: TypeIndex,
    pub indexing_type: TypeIndex,
    pub dimensions: Vec<u32>,
}

#[derive(Debug)]
pub struct PrimitiveType {
    pub kind: PrimitiveKind,
    pub indirection: Option<u8>,
}

#[derive(Debug)]
pub enum TypeData<'t> {
    Primitive(PrimitiveType),
    Class(ClassType<'t>),
    MemberFunction(MemberFunctionType),
    Procedure(ProcedureType),
    Pointer(PointerType),
    Array(ArrayType),
    Union(UnionType<'t>),
    Enumeration(EnumerationType<'t>),
    Enumerate(EnumerateType<'t>),
    Modifier(ModifierType),
    ArgumentList(ArgumentList),
    Unhandled(u16),
}

#[derive(Debug)]
pub struct FunctionId<'t> {
    pub scope: Option<IdIndex>,
    pub function_type: TypeIndex,
    pub name: RawString<'t>,
}

#[derive(Debug)]
pub struct MemberFunctionId<'t> {
    pub parent: TypeIndex,
    pub function_type: TypeIndex,
    pub name: RawString<'t>,
}

#[derive(Debug)]
pub struct StringListId {
    pub substrings: Vec<TypeIndex>,
}

#[derive(Debug)]
pub struct StringId<'t> {
    pub name: RawString<'t>,
}

#[derive(Debug)]
pub enum IdData<'t> {
    Function(FunctionId<'t>),
    MemberFunction(MemberFunctionId<'t>),
    StringList(StringListId),
    String(StringId<'t>),
    Unhandled(u16),
}

impl<'t> Item<'t, TypeIndex> {
    pub fn parse(&self) -> Result<TypeData<'t>> {
        if self.index.0 < FIRST {
            return primitive(self.index.0).map(TypeData::Primitive);
        }
        let mut fields = Fields(self.data);
        let kind = fields.u16()?;
        Ok(match kind {
            0x1001 => {
                let (underlying_type, bits) = (fields.type_index()?, fields.u16()?);
                TypeData::Modifier(ModifierType { underlying_type, constant: bits & 1 != 0, volatile: bits & 2 != 0, unaligned: bits & 4 != 0 })
            }
            0x1002 => {
                let (underlying_type, attributes) = (fields.type_index()?, PointerAttributes(fields.u32()?));
                let containing_class = if attributes.pointer_to_member() { Some(fields.type_index()?) } else { None };
                TypeData::Pointer(PointerType { underlying_type, attributes, containing_class })
            }
            0x1008 => TypeData::Procedure(ProcedureType {
                return_type: fields.optional()?,
                attributes: FunctionAttributes(fields.u16()?),
                parameter_count: fields.u16()?,
                argument_list: fields.type_index()?,
            }),
            0x1009 => TypeData::MemberFunction(MemberFunctionType {
                return_type: fields.type_index()?,
                class_type: fields.type_index()?,
                this_pointer_type: fields.optional()?,
                attributes: FunctionAttributes(fields.u16()?),
                parameter_count: fields.u16()?,
                argument_list: fields.type_index()?,
                this_adjustment: fields.u32()?,
            }),
            0x1201 => TypeData::ArgumentList(ArgumentList { arguments: fields.list()? }),
            0x1502 => TypeData::Enumerate(EnumerateType { attributes: fields.u16()?, value: fields.variant()?, name: fields.name()? }),
            0x1503 => {
                let (element_type, indexing_type) = (fields.type_index()?, fields.type_index()?);
                let size = u32::try_from(fields.unsigned()?).map_err(|_| Error::UnexpectedEof)?;
                TypeData::Array(ArrayType { element_type, indexing_type, dimensions: vec![size] })
            }
            0x1504 | 0x1505 | 0x1519 => {
                let kind = match kind {
                    0x1504 => ClassKind::Class,
                    0x1505 => ClassKind::Struct,
                    _ => ClassKind::Interface,
                };
                let (count, properties) = (fields.u16()?, TypeProperties(fields.u16()?));
                let (members, derived_from, vtable_shape) = (fields.optional()?, fields.optional()?, fields.optional()?);
                let (size, name, unique_name) = (fields.unsigned()?, fields.name()?, fields.unique_name(properties)?);
                TypeData::Class(ClassType { kind, count, properties, fields: members, derived_from, vtable_shape, size, name, unique_name })
            }
            0x1506 => {
                let (count, properties, members) = (fields.u16()?, TypeProperties(fields.u16()?), fields.type_index()?);
                let (size, name, unique_name) = (fields.unsigned()?, fields.name()?, fields.unique_name(properties)?);
                TypeData::Union(UnionType { count, properties, fields: members, size, name, unique_name })
            }
            0x1507 => {
                let (count, properties) = (fields.u16()?, TypeProperties(fields.u16()?));
                let (underlying_type, members) = (fields.type_index()?, fields.type_index()?);
                let (name, unique_name) = (fields.name()?, fields.unique_name(properties)?);
                TypeData::Enumeration(EnumerationType { count, properties, underlying_type, fields: members, name, unique_name })
            }
            0x1203 | 0x1205 | 0x1206 => TypeData::Unhandled(kind),
            _ => return Err(Error::UnimplementedTypeKind(kind)),
        })
    }
}

impl<'t> Item<'t, IdIndex> {
    pub fn parse(&self) -> Result<IdData<'t>> {
        let mut fields = Fields(self.data);
        let kind = fields.u16()?;
        Ok(match kind {
            0x1601 => {
                let (scope, function_type) = (fields.optional()?, fields.type_index()?);
                IdData::Function(FunctionId { scope, function_type, name: fields.name()? })
            }
            0x1602 => {
                let (parent, function_type) = (fields.type_index()?, fields.type_index()?);
                IdData::MemberFunction(MemberFunctionId { parent, function_type, name: fields.name()? })
            }
            0x1604 => IdData::StringList(StringListId { substrings: fields.list()? }),
            0x1605 => {
                fields.u32()?;
                IdData::String(StringId { name: fields.name()? })
            }
            0x1603 | 0x1606 | 0x1607 => IdData::Unhandled(kind),
            _ => return Err(Error::UnimplementedTypeKind(kind)),
        })
    }
}

macro_rules! primitives {
    ($($code:literal $kind:ident),*) => {
        #[derive(Debug, Clone, Copy)]
        pub enum PrimitiveKind {
            $($kind),*
        }

        fn primitive(index: u32) -> Result<PrimitiveType> {
            let indirection = match index >> 8 & 0xf {
                0 => None,
                indirection @ 1..=7 => Some(indirection as u8),
                _ => return Err(Error::TypeNotFound(index)),
            };
            let kind = match index & 0xff {
                $($code => PrimitiveKind::$kind,)*
                _ => return Err(Error::TypeNotFound(index)),
            };
            Ok(PrimitiveType { kind, indirection })
        }
    };
}

primitives!(
    0x00 NoType, 0x03 Void, 0x08 HRESULT, 0x10 Char, 0x11 Short, 0x12 Long, 0x13 Quad, 0x14 Octa, 0x20 UChar, 0x21 UShort, 0x22 ULong, 0x23 UQuad,
    0x24 UOcta, 0x30 Bool8, 0x31 Bool16, 0x32 Bool32, 0x33 Bool64, 0x40 F32, 0x41 F64, 0x42 F80, 0x43 F128, 0x44 F48, 0x45 F32PP, 0x46 F16,
    0x50 Complex32, 0x51 Complex64, 0x52 Complex80, 0x53 Complex128, 0x68 I8, 0x69 U8, 0x70 RChar, 0x71 WChar, 0x72 I16, 0x73 U16, 0x74 I32, 0x75 U32,
    0x76 I64, 0x77 U64, 0x78 I128, 0x79 U128, 0x7a RChar16, 0x7b RChar32, 0x7c Char8
);

// The parts of a PDB beside its streams

#[derive(Debug, Clone, Copy)]
pub enum MachineType {
    X86,
    Amd64,
    Arm64,
    Ia64,
    RiscV64,
    RiscV128,
}

pub struct DebugInformation<'s> {
    pub machine: MachineType,
    pub source: PhantomData<&'s ()>,
}

impl DebugInformation<'_> {
    pub fn machine_type(&self) -> Result<MachineType> {
        Ok(self.machine)
    }
}

pub struct StringTable<'s>(PhantomData<&'s ()>);

pub struct StringRef;

impl StringRef {
    pub fn to_string_lossy<'s>(&self, _: &StringTable<'s>) -> Result<Cow<'s, str>> {
        unreachable!("there is no string table")
    }
}

pub struct ModuleRef(pub StringRef);

#[derive(Clone, Copy)]
pub struct Local<I>(pub I);

pub struct CrossModuleRef<I>(pub ModuleRef, pub Local<I>);

pub struct CrossModuleImports<'m>(PhantomData<&'m ()>);

impl CrossModuleImports<'_> {
    pub fn resolve_import<I: ItemIndex>(&self, _: I) -> Result<CrossModuleRef<I>> {
        unreachable!("there is no string table")
    }
}

pub struct CrossModuleExports;

impl CrossModuleExports {
    pub fn resolve_import<I: ItemIndex>(&self, _: Local<I>) -> Result<Option<I>> {
        unreachable!("there is no string table")
    }
}

pub struct Module<'m>(PhantomData<&'m ()>);

impl Module<'_> {
    pub fn module_name(&self) -> Cow<'_, str> {
        unreachable!("there are no modules")
    }
}

pub struct ModuleInfo<'s>(PhantomData<&'s ()>);

impl ModuleInfo<'_> {
    pub fn imports(&self) -> Result<CrossModuleImports<'_>> {
        unreachable!("there are no modules")
    }

    pub fn exports(&self) -> Result<CrossModuleExports> {
        unreachable!("there are no modules")
    }
}

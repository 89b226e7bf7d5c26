//! The file descriptor byte: 01, "Descriptor and rules", first paragraph.

/// What a descriptor byte describes.
#[derive(Clone, Copy, PartialEq, Eq, Debug)]
pub enum Class {
    /// A directory.
    Df,
    /// An elementary file of the given structure.
    Ef(Structure),
    /// Neither: no file may carry this byte.
    Neither,
}

/// The structure of an elementary file, bits b3 to b1.
#[derive(Clone, Copy, PartialEq, Eq, Debug)]
pub enum Structure {
    /// 001.
    Transparent,
    /// 010.
    LinearFixed,
    /// 110.
    Cyclic,
}

impl Structure {
    /// Whether the file consists of records and so has a record length.
    pub fn has_records(self) -> bool {
        match self {
            Structure::Transparent => false,
            Structure::LinearFixed | Structure::Cyclic => true,
        }
    }
}

/// The class of a descriptor byte: b8 is 0, b7 free, b6-b4 type, b3-b1
/// structure.
pub fn class(descriptor: u8) -> Class {
    let b8 = descriptor >> 7;
    let file_type = (descriptor >> 3) & 0b111;
    let structure = descriptor & 0b111;
    match (b8, file_type, structure) {
        (0, 0b111, 0b000) => Class::Df,
        (0, 0b000 | 0b001, 0b001) => Class::Ef(Structure::Transparent),
        (0, 0b000 | 0b001, 0b010) => Class::Ef(Structure::LinearFixed),
        (0, 0b000 | 0b001, 0b110) => Class::Ef(Structure::Cyclic),
        _ => Class::Neither,
    }
}

/// Whether size and record length fit the structure: 01, "CREATE" ("Size is
/// never 0"; record length 1-255, size a multiple of it, 1-254 records), and
/// "Image" (record length 0 where the structure is neither 010 nor 110).
pub fn measures_fit(class: Class, size: u32, record_length: u16) -> bool {
    let records = match class {
        Class::Df => false,
        Class::Ef(structure) => structure.has_records(),
        Class::Neither => return false,
    };
    if size == 0 {
        return false;
    }
    if !records {
        return record_length == 0;
    }
    let length = u32::from(record_length);
    if !(1..=255).contains(&length) {
        return false;
    }
    size % length == 0 && (1..=254).contains(&(size / length))
}

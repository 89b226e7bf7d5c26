//! Smaller images: fewer slots, fewer records, fewer levels. Each stays sound
//! where it can; an image of any bytes gives an image or nothing.

const HEADER: usize = 16;
const RECORD: usize = 64;
/// Where the header tells the slot count, the current DF and EF, and a record
/// its parent, level, record length and size.
const SLOTS: usize = 5;
const CURRENT_DF: usize = 7;
const CURRENT_EF: usize = 9;
const PARENT: usize = 6;
const LEVEL: usize = 8;
const RECORD_LENGTH: usize = 10;
const SIZE: usize = 12;
const NO_EF: u16 = 0xFFFF;
/// What a file costs its directory beside its size.
const FILE_COST: u32 = 64;

/// How many whole records the image has.
pub fn slots_of(image: &[u8]) -> usize {
    image.len().saturating_sub(HEADER) / RECORD
}

/// The image with its first slots only, and a root's total that fits them.
pub fn cut(image: &[u8], slots: usize) -> Option<Vec<u8>> {
    let mut image = image.get(..HEADER + RECORD * slots)?.to_vec();
    put(&mut image, SLOTS, u16::try_from(slots).ok()?)?;
    let most = u32::try_from(RECORD * slots.saturating_sub(1)).ok()?;
    let now = size(&image, 0)?;
    put_size(&mut image, 0, now.min(most))?;
    Some(image)
}

/// The image with records freed. Where they held the current DF, the nearest
/// directory above that is left becomes current.
pub fn freed(image: &[u8], slot: usize, count: usize) -> Option<Vec<u8>> {
    let gone = slot..slot + count;
    let df = number(image, CURRENT_DF)?;
    let left = nearest_left(image, df, &gone)?;
    let ef = number(image, CURRENT_EF)?;
    let stays = left == df && !gone.contains(&usize::from(ef));
    let mut image = image.to_vec();
    let end = image.len().min(HEADER + RECORD * gone.end);
    image.get_mut(HEADER + RECORD * gone.start..end)?.fill(0);
    put(&mut image, CURRENT_DF, left)?;
    put(&mut image, CURRENT_EF, if stays { ef } else { NO_EF })?;
    Some(image)
}

/// The image with records freed, and what lay in them moved up to the nearest
/// directory that is left. That one has room for it: it paid more for the
/// directory than the directory could hold.
pub fn lifted(image: &[u8], slot: usize, count: usize) -> Option<Vec<u8>> {
    let gone = slot..slot + count;
    let mut smaller = freed(image, slot, count)?;
    // A current EF moves with its directory.
    let ef = number(image, CURRENT_EF)?;
    if ef != NO_EF && !gone.contains(&usize::from(ef)) {
        put(&mut smaller, CURRENT_EF, ef)?;
    }
    let mut used: Vec<usize> = (1..slots_of(image)).filter(|&at| is_used(&smaller, at)).collect();
    used.sort_by_key(|&at| number(image, at_record(at) + LEVEL));
    for at in used {
        let parent = nearest_left(image, number(image, at_record(at) + PARENT)?, &gone)?;
        let level = number(&smaller, at_record(parent.into()) + LEVEL)?.checked_add(1)?;
        put(&mut smaller, at_record(at) + PARENT, parent)?;
        put(&mut smaller, at_record(at) + LEVEL, level)?;
    }
    Some(smaller)
}

/// The image with its used records side by side, and so many free ones behind
/// them.
pub fn packed(image: &[u8], spare: usize) -> Option<Vec<u8>> {
    let used: Vec<usize> = (0..slots_of(image)).filter(|&at| is_used(image, at)).collect();
    let slots = (used.len() + spare).max(2);
    if slots >= slots_of(image) {
        return None;
    }
    let place = |old: u16| {
        let new = used.binary_search(&usize::from(old)).ok()?;
        u16::try_from(new).ok()
    };
    let mut smaller = image.get(..HEADER)?.to_vec();
    for &at in &used {
        smaller.extend(image.get(at_record(at)..at_record(at + 1))?);
    }
    smaller.resize(at_record(slots), 0);
    for new in 0..used.len() {
        let parent = number(&smaller, at_record(new) + PARENT)?;
        put(&mut smaller, at_record(new) + PARENT, place(parent)?)?;
    }
    put(&mut smaller, CURRENT_DF, place(number(image, CURRENT_DF)?)?)?;
    let ef = number(image, CURRENT_EF)?;
    put(&mut smaller, CURRENT_EF, if ef == NO_EF { NO_EF } else { place(ef)? })?;
    cut(&smaller, slots)
}

/// Where a slot's record is when the used records stand side by side; a free slot
/// comes behind them.
pub fn rank(image: &[u8], slot: usize) -> usize {
    let before =
        |end: usize| (0..end.min(slots_of(image))).filter(|&at| is_used(image, at)).count();
    if is_used(image, slot) {
        before(slot)
    } else {
        before(usize::MAX).max(2) + slot.saturating_sub(slots_of(image))
    }
}

/// The image with sizes no larger than they must be: an EF of one byte or one
/// record, a directory of what its files cost, with so much room left in the
/// current one. The slots are as many as the root's total then asks for.
pub fn tightened(image: &[u8], room: u32) -> Option<Vec<u8>> {
    let current = usize::from(number(image, CURRENT_DF)?);
    let mut used: Vec<usize> = (0..slots_of(image)).filter(|&at| is_used(image, at)).collect();
    used.sort_by_key(|&at| std::cmp::Reverse(number(image, at_record(at) + LEVEL)));
    let mut costs = vec![0u32; slots_of(image)];
    let mut smaller = image.to_vec();
    for &at in &used {
        let free = if at == current { room } else { 0 };
        let records = u32::from(number(image, at_record(at) + RECORD_LENGTH)?);
        let least = costs.get(at)?.checked_add(free)?.max(records).max(1);
        put_size(&mut smaller, at, least)?;
        let parent = usize::from(number(image, at_record(at) + PARENT)?);
        let cost = costs.get_mut(parent)?;
        *cost = cost.checked_add(least)?.checked_add(FILE_COST)?;
    }
    let slots = usize::try_from(size(&smaller, 0)?.div_ceil(FILE_COST)).ok()? + 1;
    packed(&smaller, slots.saturating_sub(used.len()))
}

/// The image with records of one byte, and one of them in each file that has
/// records.
pub fn short_records(image: &[u8]) -> Option<Vec<u8>> {
    let mut smaller = image.to_vec();
    for at in (0..slots_of(image)).filter(|&at| is_used(image, at)) {
        if number(image, at_record(at) + RECORD_LENGTH)? > 0 {
            put(&mut smaller, at_record(at) + RECORD_LENGTH, 1)?;
            put_size(&mut smaller, at, 1)?;
        }
    }
    Some(smaller)
}

/// The directory itself, or the nearest above it that is not gone.
fn nearest_left(image: &[u8], slot: u16, gone: &std::ops::Range<usize>) -> Option<u16> {
    let mut left = slot;
    for _ in gone.clone() {
        if !gone.contains(&usize::from(left)) {
            break;
        }
        left = number(image, at_record(left.into()) + PARENT)?;
    }
    Some(left)
}

/// Past every image for a slot that none has.
fn at_record(slot: usize) -> usize {
    RECORD.saturating_mul(slot).saturating_add(HEADER)
}

fn is_used(image: &[u8], slot: usize) -> bool {
    image.get(at_record(slot)).is_some_and(|&kind| kind != 0)
}

fn number(image: &[u8], at: usize) -> Option<u16> {
    Some(u16::from_be_bytes([*image.get(at)?, *image.get(at + 1)?]))
}

/// A file's size, a directory's total.
fn size(image: &[u8], slot: usize) -> Option<u32> {
    let bytes = image.get(at_record(slot) + SIZE..at_record(slot) + SIZE + 4)?;
    Some(u32::from_be_bytes(bytes.try_into().ok()?))
}

fn put_size(image: &mut [u8], slot: usize, size: u32) -> Option<()> {
    let bytes = image.get_mut(at_record(slot) + SIZE..at_record(slot) + SIZE + 4)?;
    bytes.copy_from_slice(&size.to_be_bytes());
    Some(())
}

fn put(image: &mut [u8], at: usize, number: u16) -> Option<()> {
    image.get_mut(at..at + 2)?.copy_from_slice(&number.to_be_bytes());
    Some(())
}

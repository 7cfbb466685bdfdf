//! Seals a sheet of twelve lines, changes two of them, and asks which ones.

// As include/nazkoiber.h has them. The slice's pointer is never null, and what is written to is borrowed for writing: this is all that the library wants.
extern "C" {
    fn nazkoiber_seal(text: *const u8, text_size: usize, digest: u8, changes: u16, secret: *const u8, secret_size: usize,
                      name: *const u8, name_size: usize, number: u32, out: *mut u8, room: usize, size: &mut usize) -> u8;
    fn nazkoiber_pack(text: *const u8, text_size: usize, part: *const u8, part_size: usize, out: *mut u8, room: usize, size: &mut usize) -> u8;
    fn nazkoiber_unpack(file: *const u8, file_size: usize, place: &mut usize, size: &mut usize) -> u8;
    fn nazkoiber_check(file: *const u8, file_size: usize, digest: u8, secret: *const u8, secret_size: usize,
                       list: *mut u16, places: usize, count: &mut usize, number: &mut u32) -> u8;
}

const FILE_ROOM: usize = 122_937;
const LIST_ROOM: usize = 512;
const BLAKE2S: u8 = 2;

/// A refusal's number, or 255 where memory did not suffice.
#[derive(Debug)]
struct Status(u8);

fn told<T>(status: u8, value: T) -> Result<T, Status> {
    if status == 0 { Ok(value) } else { Err(Status(status)) }
}

/// Who calls gives no two texts the same number of a key.
fn seal(text: &[u8], changes: u16, secret: &[u8; 32], name: &[u8; 8], number: u32) -> Result<Vec<u8>, Status> {
    let mut out = vec![0; FILE_ROOM];
    let mut size = 0;
    let status = unsafe {
        nazkoiber_seal(text.as_ptr(), text.len(), BLAKE2S, changes, secret.as_ptr(), 32, name.as_ptr(), 8, number, out.as_mut_ptr(), out.len(), &mut size)
    };
    out.truncate(size);
    told(status, out)
}

fn pack(text: &[u8], part: &[u8]) -> Result<Vec<u8>, Status> {
    let mut out = vec![0; FILE_ROOM];
    let mut size = 0;
    let status = unsafe { nazkoiber_pack(text.as_ptr(), text.len(), part.as_ptr(), part.len(), out.as_mut_ptr(), out.len(), &mut size) };
    out.truncate(size);
    told(status, out)
}

fn seal_part(file: &[u8]) -> Result<&[u8], Status> {
    let (mut place, mut size) = (0, 0);
    let status = unsafe { nazkoiber_unpack(file.as_ptr(), file.len(), &mut place, &mut size) };
    told(status, &file[place..place + size])
}

/// The seal's number, and the changed blocks.
fn check(file: &[u8], secret: &[u8; 32]) -> Result<(u32, Vec<u16>), Status> {
    let mut list = vec![0; LIST_ROOM];
    let (mut count, mut number) = (0, 0);
    let status = unsafe {
        nazkoiber_check(file.as_ptr(), file.len(), BLAKE2S, secret.as_ptr(), 32, list.as_mut_ptr(), list.len(), &mut count, &mut number)
    };
    list.truncate(count);
    told(status, (number, list))
}

fn main() -> Result<(), Status> {
    let secret = b"thirty-two bytes, kept by no one";
    let lines: Vec<String> = (1..=12).map(|axle| format!("axle {axle} 400\n")).collect();
    let file = seal(lines.concat().as_bytes(), 2, secret, b"bench 01", 41)?;
    println!("file {} bytes", file.len());
    let (number, changed) = check(&file, secret)?;
    println!("seal {number}: changed {changed:?}");

    let mut other = lines.clone();
    other[3] = "axle 4 300\n".to_string();
    other[7] = "axle 8 500\n".to_string();
    let file = pack(other.concat().as_bytes(), seal_part(&file)?)?;
    let (number, changed) = check(&file, secret)?;
    println!("seal {number}: changed {changed:?}");

    match check(&file, b"thirty-two bytes of someone else") {
        Ok((number, _)) => println!("another key accepts seal {number}"),
        Err(Status(status)) => println!("by another key: status {status}"),
    }
    Ok(())
}

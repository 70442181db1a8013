//! Buffers with bytes for each disk and each sector, all sectors of disk 0 first: the array, with the bytes of a sector each,
//! and the map, with one byte each. What they have for one position is an array or a map by itself.

/// What a buffer has for one position, with so many bytes of each disk.
pub fn part(bytes: &[u8], width: usize, sectors: usize, position: usize) -> Vec<u8> {
    bytes.chunks_exact(width).skip(position).step_by(sectors).flatten().copied().collect()
}

/// The same for each position in turn.
pub fn parts(bytes: &[u8], width: usize, sectors: usize) -> Vec<Vec<u8>> {
    (0..sectors).map(|position| part(bytes, width, sectors, position)).collect()
}

/// The buffer that has these for its positions.
pub fn joined(parts: &[Vec<u8>], width: usize) -> Vec<u8> {
    let of_disk = |disk: usize| parts.iter().map(move |part| &part[disk * width..(disk + 1) * width]);
    (0..parts[0].len() / width).flat_map(of_disk).flatten().copied().collect()
}

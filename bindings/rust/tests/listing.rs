//! The object listing of a blob with many property blocks, whose ids fall: every row as a plain walk
//! of the blocks has it.

use mcos::ObjectRow;

/// Blocks of 0 to 3 triples, each with the step up to a multiple of 8, and the count of each.
fn blocks(from: usize, counts: &[u32]) -> Vec<u8> {
    let mut bytes = Vec::new();
    for &count in counts {
        bytes.extend(count.to_le_bytes());
        for _ in 0..3 * count {
            bytes.extend(0u32.to_le_bytes());
        }
        while (from + bytes.len()) % 8 != 0 {
            bytes.push(0);
        }
    }
    bytes
}

/// Counts in no order.
fn counts(blocks: usize, salt: usize) -> Vec<u32> {
    (0..blocks).map(|k| ((k * 7 + k / 5 + salt) % 4) as u32).collect()
}

/// A blob whose objects have these ids of a saved and of a normal block.
fn blob(saved: &[u32], normal: &[u32], ids: &[(u32, u32)]) -> Vec<u8> {
    let start = 48;
    let saved_blocks = blocks(start, saved);
    let records = start + saved_blocks.len();
    let normal_start = records + 24 * (ids.len() + 1);
    let normal_blocks = blocks(normal_start, normal);
    let end = normal_start + normal_blocks.len();
    let mut bytes = Vec::new();
    for word in [4, 1, start, start, records, normal_start, end, end, end, end] {
        bytes.extend((word as u32).to_le_bytes());
    }
    bytes.extend([0; 8]);
    bytes.extend(saved_blocks);
    bytes.extend([0; 24]);
    for (i, &(saved_id, normal_id)) in ids.iter().enumerate() {
        for word in [i as u32, 0, 0, saved_id, normal_id, 0] {
            bytes.extend(word.to_le_bytes());
        }
    }
    bytes.extend(normal_blocks);
    bytes
}

#[test]
fn falling_ids_among_many_blocks() {
    // Below and above the entries of the library's index, and ids at both ends of every stride.
    for (saved, normal) in [(3, 2), (4_095, 4_095), (8_190, 1), (1, 8_191), (30_000, 20_011)] {
        let (saved, normal) = (counts(saved, 1), counts(normal, 2));
        let objects = 40_000;
        let ids: Vec<(u32, u32)> = (0..objects)
            .map(|i| match i % 5 {
                0 => ((i * 7_919 % saved.len()) as u32, 0),
                1 => (0, (i * 104_729 % normal.len()) as u32),
                2 => ((saved.len() - 1 - i % saved.len()) as u32, 1),
                3 => (0, (normal.len() - 1 - i % normal.len()) as u32),
                _ => (0, 0),
            })
            .collect();
        let expected: Vec<ObjectRow> = ids
            .iter()
            .enumerate()
            .map(|(i, &(saved_id, normal_id))| {
                let (region, block_id, of) = if saved_id != 0 { (0, saved_id, &saved) } else { (1, normal_id, &normal) };
                let property_count = if block_id == 0 { 0 } else { of[block_id as usize] };
                ObjectRow { class_id: i as u32, region, block_id, property_count }
            })
            .collect();
        let mut rows = vec![ObjectRow::default(); objects];
        let bytes = blob(&saved, &normal, &ids);
        assert_eq!(mcos::list_objects(&bytes, &mut rows), Ok(objects));
        assert_eq!(rows, expected);
    }
}

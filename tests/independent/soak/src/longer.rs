//! Plants and offers longer than a line of a log can hold. All of them are refused: the largest good
//! plant has 10,252 bytes and the largest good offer 188.

/// The bytes of the trailer, which begins with the index start.
const TRAILER: usize = 12;

/// The plant with zeros between its records and its index, and the index start moved, so that the
/// sizes add up and every record is read. What has no such place gets them at its end.
pub fn longer_plant(plant: &[u8], length: usize) -> Vec<u8> {
    let more = length.saturating_sub(plant.len());
    let mut longer = plant.to_vec();
    let trailer = plant.len().checked_sub(TRAILER);
    let index_start = trailer.map(|at| [plant[at], plant[at + 1], plant[at + 2], plant[at + 3]]);
    let index_start = index_start
        .map(u32::from_le_bytes)
        .map(|start| start as usize);
    let Some(start) = index_start.filter(|&start| Some(start) <= trailer) else {
        longer.resize(plant.len() + more, 0);
        return longer;
    };
    longer.splice(start..start, vec![0; more]);
    let trailer = longer.len() - TRAILER;
    longer[trailer..trailer + 4].copy_from_slice(&((start + more) as u32).to_le_bytes());
    longer
}

/// The offer with zeros at its end.
pub fn longer_offer(offer: &[u8], length: usize) -> Vec<u8> {
    let mut longer = offer.to_vec();
    longer.resize(length.max(offer.len()), 0);
    longer
}

#[cfg(test)]
mod tests {
    use super::*;
    use independent::check_plant;
    use independent::generate::draft::{plant_file, proving_plant};

    #[test]
    fn a_longer_plant_is_read_to_its_last_record() {
        let plant = plant_file(&proving_plant());
        assert_eq!(check_plant(&longer_plant(&plant, 0)).number(), 0);
        let longer = longer_plant(&plant, 20_000);
        let ruling = check_plant(&longer);
        assert_eq!(longer.len(), 20_000);
        assert_eq!((ruling.number(), ruling.value()), (3, Some(2)));
    }

    #[test]
    fn any_bytes_can_be_made_longer() {
        for bytes in [&[][..], &[7; 5], &[0xFF; 40], &[0; 12]] {
            assert_eq!(longer_plant(bytes, 20_000).len(), 20_000);
            assert_eq!(longer_offer(bytes, 20_000).len(), 20_000);
        }
    }
}

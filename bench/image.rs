// The longest image, as the crate `image` makes it: the words that it tells of itself, and a first byte that makes the sum 20.
pub fn longest() -> [u8; 32_760] {
    let mut image = [0u8; 32_760];
    for i in 16..image.len() {
        image[i] = (i % 251) as u8;
    }
    image[6] = 16;
    image[8] = (image.len() % 256) as u8;
    image[9] = (image.len() / 256) as u8;
    image[11] = 128;
    image[0] = image.iter().fold(20, |left: u8, byte| left.wrapping_sub(*byte));
    image
}

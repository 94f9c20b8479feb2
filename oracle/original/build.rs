fn main() {
    prepare::write(&[]);
}

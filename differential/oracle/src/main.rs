fn main() {
    oracle::command();
}

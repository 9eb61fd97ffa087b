package main

func readInt() (n int, ok bool)

func main() {
}

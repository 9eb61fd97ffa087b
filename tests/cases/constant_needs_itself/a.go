package main

const a = b

const b, c = c + 1, 2 * b

func main() { println(a) }

package main

func f() int { return 1 }

const c = 1 + f()

func main() { println(c) }

package main

const most int = 1<<63 - 1

func main() { println(most / 2, most + 1) }

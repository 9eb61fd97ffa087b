package main

func exit(code int) bool

func main() {
}

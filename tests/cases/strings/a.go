package main

func main() {
	println("a", 1, ("b\tc"), true)
	print("x\x41\101\u00e4\U0001F600", "", "\"\\\n")
	for print("init;"); false; println("never") {
	}
	for i := 0; i < 2; print("post", i, "\n") {
		i++
		println("body", i)
	}
}

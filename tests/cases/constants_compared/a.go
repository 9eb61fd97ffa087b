package main

func main() {
	if 9223372036854775807+1 > 9223372036854775807 {
		println(1)
	}
}

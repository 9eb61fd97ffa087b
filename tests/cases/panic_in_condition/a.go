package main

func main() {
	zero := 0
	println(zero != 0 && 1/zero == 1)
	if zero == 0 || 1/zero == 1 {
		println(1)
	}
	for i := 0; 6/(2-i) > 0; i++ {
		println(i)
	}
}

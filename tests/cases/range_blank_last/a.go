package main

func main() {
	for i, _ := range 3 {
		println(i)
	}
	k := 0
	for k, _ = range 4 {
	}
	for _, _ = range 2 {
		k = k * 10
	}
	println(k)
}

package main

func main() {
	i := 0
	for {
		println(i)
		i = i + 1
	}
}

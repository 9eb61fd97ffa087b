package main

func say(n int, b bool) bool {
	println(n)
	return b
}

func main() {
	t, f := true, false
	println(f && say(1, t), t || say(2, t))
	println(t && say(3, f), f || say(4, t))
	println(f && say(5, t) || say(6, t))
	println(t || say(7, t) && say(8, t))
	println(f && (say(9, t) || say(10, t)))
	println((t || say(11, t)) && say(12, f))
	if !(f || say(13, f)) {
		println(14)
	}
	x := say(15, t) && !say(16, f) || say(17, t)
	println(x, say(18, t) == say(19, f))
	for i := 0; i < 2 && say(20+i, t); i++ {
	}
}

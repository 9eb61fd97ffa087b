package main

func and(a, b bool) bool {
	return a && b
}

func swap(a, b bool) (bool, bool) {
	return b, a
}

func signs(n int) (zero, positive bool) {
	positive = n > 0
	if positive {
		return
	}
	zero = n == 0
	return
}

func main() {
	t := 1 < 2
	f := !t
	println(t, f, and(t, t), and(t, f))
	println(t == f, t != f, t == t, f != f, !t != f, !(t == f))
	a, b := swap(t, f)
	println(a, b)
	a, b = b, a
	println(a, b, a && !b, !a || b)
	zero, positive := signs(0)
	println(zero, positive)
	zero, positive = signs(5)
	println(zero, positive)
	zero, positive = signs(-5)
	println(zero, positive)
	going := true
	n := 0
	for going {
		n++
		going = n*n < 10
	}
	println(n, going)
	if a {
		println(1)
	}
	if !a {
		println(2)
	} else if b == false {
		println(3)
	}
	println(true, false, !true, true == false, 1 < 2 == true)
}

package main

const (
	rows    = 2
	columns = rows + 1
)

type span struct {
	from, to int
}

type sheet struct {
	cells  [rows][columns]int
	spans  [2]span
	head   span
	hidden bool
}

func next(n int) int {
	println("next", n)
	return n + 1
}

func show(s sheet) {
	for i := range rows {
		print(s.cells[i][0], " ", s.cells[i][1], " ", s.cells[i][2], " ")
	}
	println(s.spans[0].from, s.spans[0].to, s.spans[1].from, s.spans[1].to, s.head.from, s.head.to, s.hidden)
}

func main() {
	show(sheet{})
	show(sheet{[rows][columns]int{{1, 2, 3}, {4, 5}}, [2]span{{6, 7}, {to: 8}}, span{9, 10}, true})
	show(sheet{
		hidden: true,
		head:   span{to: 1},
		cells:  [rows][columns]int{{}, {1, 2, 3}},
	})
	s := sheet{spans: [2]span{span{1, 2}, {}}, head: span{from: -1, to: -2}}
	show(s)
	s = sheet{head: s.head, spans: [2]span{s.spans[1], s.spans[0]}, cells: [rows][columns]int{{s.spans[0].to}}}
	show(s)
	grid := [rows][columns][2]span{{{{1, 2}, {3, 4}}, {}, {{from: 5}}}, {{}, {{}, {6, 7}}}}
	println(grid[0][0][0].from, grid[0][0][1].to, grid[0][2][0].from, grid[1][1][1].from, grid[1][1][1].to, grid[1][2][1].to)
	ordered := span{to: next(1), from: next(10)}
	println(ordered.from, ordered.to)
	listed := [columns]int{next(20), 5, next(30)}
	println(listed[0], listed[1], listed[2])
	println((span{3, 4}).to, sheet{spans: [2]span{{7, 8}}}.spans == [2]span{{7, 8}, {}}, sheet{head: span{5, 6}}.head.from)
}

package rapidhash_test

import (
	"fmt"
	"io"
	"os"
	"strings"
	"time"

	"yervound.example/rapidhash"
)

func Example() {
	fmt.Println(rapidhash.Sum64([]byte("hello")))
	fmt.Println(rapidhash.Sum64String("hello"))
	// Output:
	// 3327445792987248966
	// 3327445792987248966
}

func ExampleVersionV3_Sum64WithSeed() {
	fmt.Println(rapidhash.V3.Sum64WithSeed([]byte("hello"), 0) == rapidhash.Sum64([]byte("hello")))
	fmt.Println(rapidhash.V3.Sum64WithSeed([]byte("hello"), 1) == rapidhash.Sum64([]byte("hello")))
	// Output:
	// true
	// false
}

// The lines are those of README.md.
func Example_readme() {
	fmt.Println(rapidhash.V3.Sum64WithSeed([]byte("hello"), 1) == rapidhash.V3.Sum64WithSecrets([]byte("hello"), rapidhash.SeedSecrets(1)))
	fmt.Println(rapidhash.V3.Sum64WithSecrets([]byte("hello"), rapidhash.MakeSecrets(42)) == rapidhash.Sum64([]byte("hello")))
	fmt.Println(rapidhash.V3Key(rapidhash.Text("user"), rapidhash.Integer(4711), rapidhash.Nothing()))
	stream := rapidhash.V3.NewWithSeed(0)
	fmt.Fprint(stream, "hello")
	fmt.Println(stream.Sum64(), stream.UnmarshalBinary([]byte("other")))
	// Output:
	// true
	// false
	// 14742763072502883419
	// 3327445792987248966 rapidhash: a saved Stream has 208 bytes, not 5
}

func ExampleV3Key() {
	price, err := rapidhash.Decimal("1.50")
	if err != nil {
		fmt.Fprintln(os.Stderr, err)
	}
	bought, err := rapidhash.Time(time.Date(2024, 2, 29, 12, 34, 56, 789_012_000, time.UTC))
	if err != nil {
		fmt.Fprintln(os.Stderr, err)
	}
	tags := rapidhash.List(rapidhash.Text("new"), rapidhash.Bool(true))
	fmt.Println(rapidhash.V3Key(price, bought, tags) == rapidhash.V3Key(rapidhash.Text("1.5"),
		rapidhash.Integer(1709210096789012), rapidhash.Integer(2), rapidhash.Text("new"), rapidhash.Integer(1)))
	_, err = rapidhash.Time(time.Unix(0, 1))
	fmt.Println(err)
	// Output:
	// true
	// rapidhash: Time: a part of a microsecond: t.Truncate(time.Microsecond) has none
}

func ExampleStream() {
	var stream rapidhash.Stream
	if _, err := io.Copy(&stream, strings.NewReader("hello")); err != nil {
		fmt.Fprintln(os.Stderr, err)
	}
	fmt.Println(stream.Sum64())
	fmt.Printf("%x\n", stream.Sum(nil))
	// Output:
	// 3327445792987248966
	// 2e2d7651b45f7946
}

func ExampleStream_MarshalBinary() {
	first, second := rapidhash.New(), new(rapidhash.Stream)
	first.WriteString("hel")
	saved, _ := first.MarshalBinary()
	if err := second.UnmarshalBinary(saved); err != nil {
		fmt.Fprintln(os.Stderr, err)
	}
	second.WriteString("lo")
	fmt.Println(second.Sum64())
	// Output: 3327445792987248966
}

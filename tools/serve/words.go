package main

import (
	_ "embed"
	"errors"
	"flag"
	"fmt"
	"io"
	"io/fs"
	"net"
	"strconv"
	"strings"

	"faultyard"
)

//go:embed help.txt
var help string

// words is what the command line says.
type words struct {
	config, audit, socket   string
	socketMode              fs.FileMode
	listen, tokens          string
	certificate, privateKey string
}

// parsed reads the command line, or answers nil where only a text was asked for.
func parsed(arguments []string, out io.Writer) (*words, error) {
	its := new(words)
	var version bool
	flags := flag.NewFlagSet("faultyard-serve", flag.ContinueOnError)
	flags.SetOutput(io.Discard)
	for name, value := range map[string]*string{
		"audit": &its.audit, "socket": &its.socket, "listen": &its.listen,
		"tokens": &its.tokens, "tls-cert": &its.certificate, "tls-key": &its.privateKey,
	} {
		flags.StringVar(value, name, "", "")
	}
	flags.BoolVar(&version, "version", false, "")
	mode := flags.String("socket-mode", "0600", "")
	var names []string
	for rest := arguments; ; {
		err := flags.Parse(rest)
		if errors.Is(err, flag.ErrHelp) {
			_, err = io.WriteString(out, help)
			return nil, err
		}
		if err != nil {
			return nil, wrongWords(dashed(err.Error()))
		}
		if flags.NArg() == 0 {
			break
		}
		names = append(names, flags.Arg(0))
		rest = flags.Args()[1:]
	}
	if version {
		_, err := fmt.Fprintf(out, "faultyard-serve %s\n", libraryVersion())
		return nil, err
	}
	number, err := strconv.ParseUint(*mode, 8, 32)
	if err != nil || number&^0o777 != 0 {
		return nil, wrongWords("--socket-mode takes three octal digits, as 0660")
	}
	its.socketMode = fs.FileMode(number)
	return its.complete(names)
}

// libraryVersion is the version of the library that the server is linked with, and its own.
func libraryVersion() string {
	major, minor, patch := faultyard.Version()
	return fmt.Sprintf("%d.%d.%d", major, minor, patch)
}

// complete checks the words, and fills in what is left out.
func (its *words) complete(names []string) (*words, error) {
	switch {
	case len(names) != 1:
		return nil, wrongWords("one cluster file is needed")
	case its.audit == "":
		return nil, wrongWords("--audit FILE is needed")
	case (its.certificate == "") != (its.privateKey == ""):
		return nil, wrongWords("--tls-cert and --tls-key go together")
	case its.listen == "" && (its.tokens != "" || its.certificate != ""):
		return nil, wrongWords("--tokens and --tls-cert go with --listen")
	}
	if its.listen != "" {
		host, _, err := net.SplitHostPort(its.listen)
		if err != nil {
			return nil, wrongWords("--listen takes HOST:PORT")
		}
		address := net.ParseIP(host)
		if its.tokens == "" && (address == nil || !address.IsLoopback()) {
			const why = "without --tokens, --listen takes an address of the loopback, as 127.0.0.1:7077"
			return nil, wrongWords(why)
		}
	}
	its.config = names[0]
	if its.socket == "" {
		its.socket = its.audit + ".socket"
	}
	return its, nil
}

// wrongWords is an error of the command line.
func wrongWords(why string) error {
	return failure{usage, why + "; --help says more"}
}

// dashed writes the names of options as the help does.
func dashed(why string) string {
	return strings.Replace(strings.Replace(why, ": -", ": --", 1), "---", "--", 1)
}

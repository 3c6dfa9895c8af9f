#!/usr/bin/env ruby
# A client of `faultyard guard --questions`, in Ruby with its own library: acts, questions, faults.
#
#   FAULTYARD=bin/faultyard ruby examples/asks.rb examples/c6.toml
require "json"
require "open3"

# One guard. Give `after` the path of an audit to go on from it.
class Guard
  class Ended < StandardError; end

  attr_reader :audit

  def initialize(config, after: nil, program: ENV.fetch("FAULTYARD", "faultyard"))
    words = [program, "guard", config, "--questions"]
    words += ["--after", after] if after
    @in, @out, @err, @process = Open3.popen3(*words)
    @audit = after ? File.read(after) : heard
  end

  # Makes an act, and answers its reply.
  def act(by, name, **members)
    line = told({ by: by, act: { name => members } })
    @audit += line
    JSON.parse(line).fetch("reply")
  end

  # What is told to a question. It enters nothing.
  def ask(name, **members) = JSON.parse(told({ ask: { name => members } })).fetch("told")

  def close
    @in.close
    raise Ended, @err.read.chomp unless @process.value.success?
  end

  private

  def told(line)
    @in.puts(JSON.generate(line))
    heard
  rescue Errno::EPIPE
    raise Ended, @err.read.chomp
  end

  def heard = @out.gets || raise(Ended, @err.read.chomp)
end

if $PROGRAM_NAME == __FILE__
  guard = Guard.new(ARGV.fetch(0))
  kill = { key: :zoneid, value: :z0, kind: :KillInstantly, floor: :Reboot, tear: 0 }
  p guard.ask(:judge, by: 1, act: { kill: kill })
  p guard.act(1, :kill, **kill)
  place = { key: :zoneid, value: :z1 }
  questions = { killable: { actor: 1 }, state: { process: 0 }, cluster: {}, record: { record: 0 },
                targets: place, needed: { process: 2 }, sight: {}, bears: {} }
  questions.each { |name, members| p guard.ask(name, **members) }
  guard.close
  print guard.audit
end

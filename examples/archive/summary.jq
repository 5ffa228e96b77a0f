# What is counted of lines of an archive: all files, the valid ones, those that fail by their codes, those that are refused by their reasons,
# those without a store, and others by their statuses. A reason why an external store is refused stands behind the word `store`.
reduce inputs as $line ({files: 0, valid: 0, failing: {}, refused: {}, none: 0, other: {}};
    ($line.report | split(" ")) as $words
    | .files += 1
    | if $line.status == 0 then .valid += 1
      elif $line.status == 3 then .none += 1
      elif $words[0] == "failing" then .failing[$words[1]] += 1
      elif $words[0] == "refused" then .refused[$words[1:-1] | join(" ")] += 1
      else .other[$line.status | tostring] += 1
      end)

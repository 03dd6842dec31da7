# The report of `pgbackrest --stanza=NAME --output=json info` with the keys of pgBackRest 2, for monitors that read those:
#   pgbackrest --stanza=main --output=json info | tail -n 1 | jq -c -f info.jq
# (warnings of the configuration come before the report, so its last line is taken; jq rounds the 64 bits of a system identifier)
map({
  name, cipher,
  status: (.status + {lock: {backup: {held: false}}}),
  repo: [{key: 1, cipher, status}],
  db: [.db[] | {id, "repo-key": 1, "system-id": ."db-system-id", version: ."db-version"}],
  archive: [.archive[] | . + {database: {id: (.id | split("-")[1] | tonumber), "repo-key": 1}}],
  backup: [.backup[] | {
    "label": ."label", type: ."backup-type", prior: ."backup-prior", error: false,
    reference: (if ."backup-reference" == [] then null else ."backup-reference" end),
    timestamp: {start: ."backup-timestamp-start", stop: ."backup-timestamp-stop"},
    archive: {start: ."backup-archive-start", stop: ."backup-archive-stop"},
    database: {id: ."db-id", "repo-key": 1},
    backrest: {format: 5, version: "0.1"},
    # (without compression a backup takes as many bytes in the repository as in the data folder)
    info: {
      size: ."backup-info-size", delta: ."backup-info-repo-size-delta",
      repository: {size: ."backup-info-size", delta: ."backup-info-repo-size-delta"}
    }
  }]
})

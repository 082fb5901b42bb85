# Nothing unused may stay: functions without a caller, lemmas without a citation, definitions that nothing names.
check 'each function has a caller, each lemma a citation, and each definition is named' "$(tests/pages/unused.py 2>&1)"

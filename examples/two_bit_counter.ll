define i64 @main() #0 {
entry:
  br label %try

try:
  call void @__quantum__qis__cnot__body(%Qubit* null, %Qubit* inttoptr (i64 1 to %Qubit*))
  call void @__quantum__qis__x__body(%Qubit* null)
  call void @__quantum__qis__mz__body(%Qubit* inttoptr (i64 1 to %Qubit*), %Result* null)
  %done = call i1 @__quantum__rt__read_result(%Result* null)
  br i1 %done, label %end, label %try

end:
  call void @__quantum__rt__result_record_output(%Result* null, i8* null)
  ret i64 0
}

declare i1 @__quantum__rt__read_result(%Result*)
declare void @__quantum__rt__result_record_output(%Result*, i8*)
declare void @__quantum__qis__x__body(%Qubit*)
declare void @__quantum__qis__cnot__body(%Qubit*, %Qubit*)
declare void @__quantum__qis__mz__body(%Qubit*, %Result*) #1

attributes #0 = { "entry_point" "required_num_qubits"="2" "required_num_results"="1" }
attributes #1 = { "irreversible" }

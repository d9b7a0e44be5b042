"""The test that makes each public call which may report that memory ran out with a value far above what is usual.

A body that gives up with an out-of-memory error at a large value satisfies its contract. These tests notice it. A call
that only other calls of the list make is named with the test of those.
"""

from __future__ import annotations

LIBRARY = "python/osb_tests/test_large.py::"
PROGRAM = "checks/large/test_programs.py::"
CASES = "checks/large/test_cases.py::"
WORDS = "checks/replay/test_command_line.py::"

LARGE: dict[str, str] = {
    # The texts of an instance, of a binding and of updates.
    f"{LIBRARY}test_the_largest_numbers_are_written": """
        osb_record_to_text osb_holding_to_text osb_binding_record_to_text osb_binding_holding_to_text
        osb_update_holding_to_text
        osb_instance::Record::to_text osb_instance::Record::to_text_with_version
        osb_instance::Holding::to_text osb_instance::Holding::to_text_with_version
        osb_binding::BindingRecord::to_text osb_binding::BindingHolding::to_text
    """,
    f"{LIBRARY}test_blanks_around_a_text_of_one_instance_change_nothing": """
        osb_record_from_text osb_holding_from_text osb_binding_record_from_text osb_binding_holding_from_text
        osb_update_holding_from_text
        osb_instance::Record::from_text osb_instance::Record::from_text_with_version
        osb_instance::Holding::from_text osb_instance::Holding::from_text_with_version
        osb_binding::BindingRecord::from_text osb_binding::BindingHolding::from_text
        osb_json::read_value
    """,
    f"{CASES}test_texts_of_updates": """
        osb_update_text::write_holding osb_update_text::read_holding
        osb_update_text::write_record osb_update_text::read_record
    """,
    # Answers.
    f"{LIBRARY}test_a_string_of_two_megabytes_is_read": """
        osb_read_answer osb_wire::read_answer osb_wire::json_body::read_value osb_wire::json_body::read_object
    """,
    f"{LIBRARY}test_long_details_of_an_answer_are_read": """
        osb_read_details osb_wire::read_details osb_wire::read_operation osb_c_wire::push_if osb_member_text
        osb_wire::member_text osb_wire::json_texts::read_json osb_wire::json_texts::text_under
    """,
    f"{LIBRARY}test_a_long_description_is_written_as_far_as_it_goes": """
        osb_write_told_answer osb_wire::write_answer
    """,
    f"{LIBRARY}test_a_long_object_of_a_binding_is_passed_on": """
        osb_write_binding osb_read_binding
        osb_binding_wire::write_binding osb_binding_wire::read_binding_answer osb_binding_wire::read_fetched
    """,
    f"{CASES}test_long_answers_to_an_update_and_a_fetch": """
        osb_update_wire::read_update_answer osb_update_wire::write_success osb_update_wire::write_failure
        osb_update_wire::write_fetched osb_update_wire::read_fetched
    """,
    f"{LIBRARY}test_long_answers_to_an_update_and_a_fetch_are_written": """
        osb_write_success osb_write_failure osb_write_fetched
    """,
    # Requests that are written.
    f"{LIBRARY}test_long_texts_go_into_a_target": """
        osb_write_named_target osb_write_binding_target
        osb_wire::write_named_target osb_wire::target_writing::write_instance_path
        osb_wire::target_writing::write_query osb_wire::target_writing::add_plan
        osb_binding_wire::write_binding_target osb_binding_wire::write_fetch
    """,
    f"{LIBRARY}test_long_members_go_into_a_body": """
        osb_write_named_body osb_write_binding_body
        osb_wire::write_named_body osb_wire::provision_writing::put_text
        osb_binding_wire::write_binding_body osb_c_wire::read_members
    """,
    f"{CASES}test_a_long_request": """
        osb_wire::write_request osb_binding_wire::write_binding_request
    """,
    f"{CASES}test_a_long_request_of_guids": "osb_wire::write_target osb_wire::asked_operation osb_wire::write_body",
    f"{CASES}test_a_long_update_and_a_long_fetch": """
        osb_update_wire::write_update osb_update_wire::write_fetch
        osb_update_wire::read_update_request osb_update_wire::update_parts
    """,
    # Requests that are read.
    f"{LIBRARY}test_a_long_provision_is_read": """
        osb_receive_request osb_maintenance_conflict
        osb_wire::read_request osb_wire::body_parts osb_wire::maintenance_conflict
        osb_wire::request_reading::read_member
    """,
    f"{LIBRARY}test_a_long_bind_is_read": """
        osb_receive_binding_request osb_requires_app
        osb_binding_wire::read_binding_request osb_binding_wire::binding_parts osb_binding_wire::requires_app
    """,
    f"{LIBRARY}test_a_long_update_is_read": "osb_receive_update_request",
    f"{LIBRARY}test_a_query_of_many_parameters_is_read": """
        osb_wire::query_reading::read_value osb_wire::query_reading::read_id osb_wire::query_reading::read_needed_id
        osb_wire::query_reading::read_flag osb_wire::request_reading::read_poll
        osb_wire::request_reading::read_deprovision osb_wire::request_reading::read_one
    """,
    # Digests, headers and catalogues.
    f"{LIBRARY}test_digests_of_long_parameters": """
        osb_attributes_digest osb_parameters_digest osb_wire::attributes_digest osb_wire::parameters_digest
    """,
    f"{LIBRARY}test_long_headers": """
        osb_basic_auth osb_originating_identity osb_wire::basic_auth osb_wire::originating_identity
    """,
    f"{LIBRARY}test_a_catalogue_of_2000_plans": """
        osb_catalogue_plans osb_catalogue_check osb_served_catalogue osb_plan_version osb_binding_modes
        osb_bindings_retrievable osb_plan_updates osb_numbers_updates osb_update_flags_are_sound osb_served_updates
        osb_update_allowed osb_c_wire::list_plans
        osb_wire::catalogue_plans osb_wire::catalogue_document osb_wire::served_catalogue osb_wire::plan_version
        osb_wire::catalogue_reading::list_at osb_wire::catalogue_reading::own_id
        osb_binding_wire::binding_modes osb_binding_wire::bindings_retrievable
    """,
    f"{CASES}test_updates_of_a_catalogue_of_2000_plans": """
        osb_update_wire::plan_updates osb_update_wire::numbers_updates osb_update_wire::update_flags_are_sound
        osb_update_wire::served_updates
    """,
    # The two sides, and schedules.
    f"{PROGRAM}test_33000_instances": """
        osb_message::Rows::insert osb_message::Rows::ids osb_broker::Broker::handle osb_in_flight::MessageList::insert
        osb_platform::Platform::create osb_platform::Platform::ids osb_platform::Platform::save
        osb_platform::Platform::load osb_world::World::step osb_world::World::ids osb_world::World::save
        osb_run::Run::take_event osb_run::Run::take_said osb_schedule::replay
        osb_lines::read_lines osb_lines::LineReader::take_next osb_lines::LineReader::take_piece
        osb_lines::LineReader::take_last osb_lines::LineReader::end osb_command_line::carry_out
    """,
    f"{PROGRAM}test_99000_plans": "osb_message::Catalogue::add osb_lines::add_plan",
    f"{PROGRAM}test_a_trace_of_33000_instances": """
        osb_run::Run::outs osb_trace::trace osb_trace::push_head osb_trace::push_number osb_trace::push_answer
    """,
    f"{CASES}test_one_run_of_many_creates": "osb_world::run",
    # crates/refusal_cases: a hundred thousand events.
    "checks/replay/test_refusals.py::test_part": "osb_lines::read_schedule",
    # Networks.
    f"{PROGRAM}test_30000_instances_of_a_network": """
        osb_network::Instance::step osb_network::Instance::settle
        osb_network_run::run_lines osb_network_run::Tally::take_line osb_network_run::Tally::take_event
        osb_network_run::Network::step osb_network_run::Network::settle
        osb_network_replay::replay_network osb_network_replay::write_network
    """,
    f"{PROGRAM}test_3000_bindings_answers_and_fetches": """
        osb_binding_network::ServiceInstance::step osb_binding_network::ServiceInstance::settle
        osb_binding_network::ServiceInstance::settle_binding
    """,
    f"{CASES}test_1500_bindings_answers_and_fetches": """
        osb_binding_network::run osb_binding_network::ServiceInstance::remove
        osb_binding_network::ServiceInstance::remove_binding osb_network::Instance::remove
    """,
    f"{CASES}test_many_instances_and_answers": """
        osb_network::run osb_network::Network::order osb_network::Network::step
    """,
    f"{CASES}test_a_list_of_many_events": "osb_network::Network::steps",
    f"{CASES}test_many_requests_and_answers_of_updates": """
        osb_update_sides::run osb_update_sides::Updates::step
        osb_update_service::run osb_update_service::UpdatedInstance::step
    """,
    f"{CASES}test_many_events_at_a_broker_alone": "osb_network::run_any osb_network::AnyPlatform::step",
    # The command line. A table and a help text are always the same.
    f"{WORDS}test_long_words": "osb_words::words_of osb_words::read_words",
    f"{WORDS}test_help": "osb_command_line::show_help",
    f"{WORDS}test_table_reads_no_input": "osb_table::write_table",
}

# Calls whose contract leaves no room for such an error, with the clause.
NEVER = {
    "osb_wire::api_version": "version",
    "osb_wire::provision_reading::member_id": "id",
    "osb_network_run::judge_line": "no_memory",
}
